// The page: its words, its table of requests, its colours, and what a pointer does.

let run, why = [], scale, lanes = [], colours, chosen = {}, dragged = null;
const view = {first: 0, last: 1}, paper = {width: 0, height: 0}, patterns = new Map();
const canvas = document.getElementById("lanes"), pen = canvas.getContext("2d");
const SLOWEST = 20;

function takeColours() {
  const isDark = matchMedia("(prefers-color-scheme: dark)").matches;
  colours = run.palettes[isDark ? "dark" : "light"];
  const own = {ground: colours.ground, ink: colours.ink, second: colours.second, grid: colours.grid, lane: colours.lane,
    link: colours.shades[0].line, focus: colours.shades[0].line, mark: colours.shades[1].pale};
  for (const [name, value] of Object.entries(own)) document.documentElement.style.setProperty(`--${name}`, value);
  patterns.clear();
}

function tellAbout() {
  const cores = `${run.cores} ${run.cores === 1 ? "core" : "cores"}`, passes = run.passes.length;
  const tasks = run.tasks.map(it => `${it.label} (${it.kind})`).join(", ");
  const asked = run.requests.length ? `, ${run.requests.length.toLocaleString("en")} requests` : "";
  document.getElementById("about").textContent = `${passes.toLocaleString("en")} passes over ${cores}${asked}; tasks: `
    + `${tasks}; policy ${run.policy}${run.plan && `; run by ${run.plan}`}${run.verdict ? "; not a legal history of it" : ""}.`;
}

// The slowest first; what is pending ranks after what is answered, by how long it is pending.
function slowestOf(task) {
  const own = run.requests.filter(it => it.task === task);
  return own.sort((one, other) => (other.pending !== null) - (one.pending !== null) || timeOf(other) - timeOf(one))
    .slice(0, SLOWEST);
}

function rowOf(it) {
  const {cells} = it, wait = it.begun === null ? "" : Math.max(it.begun - it.arrived, 0);
  const time = it.pending === null ? timeOf(it) : `>${timeOf(it)}`;
  const said = [cells.thread, cells.arrived, cells.work, wait, time, cells["by thread"]];
  const row = made("tr", {}, made("td", {}, link(waitedAddress(it), `request ${it.id}`)),
    ...said.map(text => made("td", {textContent: text})));
  row.dataset.request = it.id;
  return row;
}

function fillSlowest(task) {
  const head = ["where it waited", "thread", `came [${unit()}]`, "work [turns]", `wait [${unit()}]`,
    `response [${unit()}]`, "by thread"];
  const table = made("table", {}, made("thead", {}, made("tr", {}, ...head.map(name => made("th", {textContent: name,
    scope: "col"})))), made("tbody", {}, ...slowestOf(task).map(rowOf)));
  document.querySelector("#slow table").replaceWith(table);
}

function tellSlowest() {
  const slow = document.getElementById("slow");
  const having = run.tasks.map((_, task) => task).filter(task => run.requests.some(it => it.task === task));
  if (!having.length) return;
  const pick = made("select", {id: "of", onchange: () => fillSlowest(Number(pick.value))},
    ...having.map(task => made("option", {value: task, textContent: nameOf(task)})));
  slow.append(made("h2", {id: "slowest", textContent: "The slowest requests "}, made("form", {},
    made("label", {textContent: "of "}, pick))), made("table", {}));
  const first = having.find(task => run.tasks[task].kind === "lc") ?? having[0];
  pick.value = first;
  fillSlowest(first);
}

// The numbers of the run, a column for each task; a bound has its sign before it, and a rank of few how many.
function tellNumbers() {
  const box = document.getElementById("numbers");
  if (!run.numbers.length) return box.remove();
  box.querySelector("table").replaceChildren(...run.numbers.map((row, n) => made("tr", {},
    ...row.map(cell => made(n ? "td" : "th", {textContent: cell})))));
}

function sign(drawn) {
  const it = made("canvas", {width: 44, height: 24}), own = it.getContext("2d");
  own.scale(2, 2);
  drawn(own);
  return it;
}

function tellLegend() {
  const block = style => sign(own => { own.fillStyle = style; own.fillRect(0, 1, 22, 10); });
  const dash = sign(own => {
    own.strokeStyle = colours.second;
    own.setLineDash([5, 3]);
    own.strokeRect(-1, 6, 30, 20);
  });
  const bar = sign(own => { own.fillStyle = colours.ink; own.fillRect(0, 4, 22, 4); });
  const has = state => run.spans.some(it => it.state === state);
  const signs = run.tasks.map((it, task) => [block(fillOf(task)), `held by ${it.label}`]);
  if (has("leaving")) signs.push([block(leavingOf(0)), "striped: revoked, and being left"]);
  if (has("banned")) signs.push([block(bannedOf()), "banned"]);
  signs.push([bar, "below a task: its delay is above its threshold"]);
  signs.push([dash, "guarantee; limit of the bandwidth figure"]);
  if (run.requests.some(it => it.pending !== null)) signs.push(["△ ", "not answered by the end"]);
  if (!scale.isToScale) signs.push(["", "a pass is at least half and at most four times as wide as usual"]);
  document.getElementById("legend").replaceChildren(...signs.map(([mark, text]) => made("li", {}, mark, text)));
}

function hover(event) {
  const tip = document.getElementById("hover"), said = dragged && dragged.isMoved ? ""
    : saidOf(addressAt(event.offsetX, event.offsetY));
  tip.hidden = !said;
  tip.textContent = said;
  tip.style.left = `${Math.min(event.offsetX + 14, paper.width - 330)}px`;
  tip.style.top = `${event.offsetY + 16}px`;
}

const isWholeLane = event => laneAt(event.offsetY) === lanes[0];

function press(event) {
  if (event.button) return;
  dragged = {x: event.offsetX, first: view.first, last: view.last, isMoved: false, isPart: event.shiftKey};
  canvas.setPointerCapture(event.pointerId);
  if (isWholeLane(event)) centre(event.offsetX);
}

// Shows the part of the run around a place of the whole.
function centre(x) {
  const middle = FIRST_PLACE + (x - LEFT) / across() * (lastPlace() - FIRST_PLACE), size = view.last - view.first;
  show(middle - size / 2, middle + size / 2);
  dragged.isWhole = true;
}

function drag(event) {
  if (dragged && Math.abs(event.offsetX - dragged.x) > 3) dragged.isMoved = true;
  if (dragged && dragged.isWhole) centre(event.offsetX);
  else if (dragged && dragged.isMoved && !dragged.isPart) {
    const by = (dragged.x - event.offsetX) / across() * (dragged.last - dragged.first);
    const first = Math.min(Math.max(dragged.first + by, FIRST_PLACE), lastPlace() - (dragged.last - dragged.first));
    show(first, first + dragged.last - dragged.first);
  }
  hover(event);
}

function release(event) {
  const was = dragged;
  dragged = null;
  if (!was || was.isWhole) return;
  if (was.isMoved && was.isPart) {
    show(...[was.x, event.offsetX].map(placeAt).sort((one, other) => one - other));
  } else if (!was.isMoved) {
    const address = addressAt(event.offsetX, event.offsetY);
    if (address) go(address);
  }
}

function wheel(event) {
  if (event.ctrlKey || event.metaKey) zoom(event.deltaY > 0 ? 1.25 : 0.8, placeAt(event.offsetX));
  else if (event.shiftKey || Math.abs(event.deltaX) > Math.abs(event.deltaY)) {
    move((event.deltaX || event.deltaY) / across());
  } else return;
  event.preventDefault();
}

function nearer(event) {
  const {span} = choiceOf(addressAt(event.offsetX, event.offsetY));
  if (!span) return zoom(0.5, placeAt(event.offsetX));
  const first = scale.edges[span.from], last = scale.edges[endOf(span)], around = (last - first) / 2 + 1;
  show(first - around, last + around);
}

function listen() {
  const buttons = {earlier: () => move(-0.5), later: () => move(0.5), nearer: () => zoom(0.5), farther: () => zoom(2),
    whole: showWhole};
  for (const [id, does] of Object.entries(buttons)) document.getElementById(id).addEventListener("click", does);
  canvas.addEventListener("pointerdown", press);
  canvas.addEventListener("pointermove", drag);
  canvas.addEventListener("pointerup", release);
  canvas.addEventListener("pointerleave", () => { document.getElementById("hover").hidden = true; });
  canvas.addEventListener("dblclick", nearer);
  canvas.addEventListener("wheel", wheel, {passive: false});
  canvas.addEventListener("keydown", key);
  window.addEventListener("hashchange", choose);
  window.addEventListener("resize", drawSoon);
  matchMedia("(prefers-color-scheme: dark)").addEventListener("change", () => { takeColours(); tellLegend(); draw(); });
}

async function start() {
  run = runOf(await unpacked("facts"));
  scale = scaleOf(run.passes);
  lanes = lanesOf();
  takeColours();
  tellAbout();
  tellSlowest();
  tellNumbers();
  tellLegend();
  listen();
  view.last = lastPlace();
  draw();
  why = await unpacked("why");
  choose();
  document.documentElement.dataset.ready = "yes";
}

start().catch(fault => {
  document.getElementById("about").textContent = `The run cannot be shown here: ${fault.message}. A browser of 2023 or `
    + "later reads this page.";
  throw fault;
});
