// The lanes, from top to bottom: the whole run with the part that is shown, the passes, the tasks, the bandwidth
// figure, the responses, the cores.

const GAP = 6, CORE = 17;

function lanesOf() {
  const tasks = run.tasks.map((_, task) => task);
  const answers = tasks.filter(task => run.tasks[task].kind === "lc" ? run.requests.some(it => it.task === task)
    : run.requests.some(it => it.task === task && it.answered !== null));
  const figure = {kind: "bandwidth", height: 40, draw: drawBandwidth, label: ["bandwidth", `limit ${run.limit}`]};
  const lanes = [{kind: "whole", height: 30, draw: drawWhole, label: ["whole run", `${run.cores} cores`]},
    {kind: "passes", height: 34, draw: drawPasses, label: ["pass", `clock [${unit()}]`]},
    ...tasks.map(taskLane), ...(run.passes.some(it => it.figure) ? [figure] : []), ...answers.map(responsesLane),
    ...run.ofCore.map((_, core) => ({kind: "core", core, height: CORE, draw: drawCore, label: [`core ${core}`]}))];
  let top = 4;
  for (const lane of lanes) {
    lane.top = top;
    top += lane.height + (lane.kind === "core" ? (lane.core % 2 ? 5 : 1) : GAP);
  }
  paper.height = top;
  return lanes;
}

function taskLane(task) {
  const {label, kind, limit, guaranteed} = run.tasks[task], kept = guaranteed ? `, guarantee ${guaranteed}` : "";
  return {kind: "task", task, height: run.tasks.length > 4 ? 34 : 46, draw: drawTask,
    label: [`${label} (${kind})`, `limit ${limit}${kept}`]};
}

function responsesLane(task) {
  const own = run.requests.filter(it => it.task === task);
  const most = own.reduce((until, it) => Math.max(until, timeOf(it)), 1);
  return {kind: "responses", task, height: 64, draw: drawResponses, most,
    own: own.sort((one, other) => one.arrived - other.arrived),
    label: [nameOf(task), `response to ${most.toLocaleString("en")}`]};
}

// Drawing on the canvas: filled, in lines, and words that are cut to their room.

// What is wide enough begins and ends at a pixel, so that neighbours have no seam.
function fill(x, y, width, height, colour) {
  const [left, right] = width < 2 ? [x, x + width] : [x, x + width].map(Math.round);
  pen.fillStyle = colour;
  pen.fillRect(left, y, right - left, height);
}

function line(x1, y1, x2, y2, colour, dash = []) {
  pen.strokeStyle = colour;
  pen.setLineDash(dash);
  pen.beginPath();
  pen.moveTo(x1, y1);
  pen.lineTo(x2, y2);
  pen.stroke();
  pen.setLineDash([]);
}

const FONT = "12px system-ui, sans-serif";

function words(text, x, y, room, colour) {
  pen.font = FONT;
  pen.fillStyle = colour;
  let cut = text;
  while (cut && pen.measureText(cut).width > room) cut = cut.length > 2 ? `${cut.slice(0, -2)}…` : "";
  pen.fillText(cut, x, y);
}

function drawLabel(lane) {
  const [first, second] = lane.label, middle = lane.top + lane.height / 2 + 4;
  words(first, 0, second ? middle - 7 : middle, LEFT - 10, colours.ink);
  if (second) words(second, 0, middle + 8, LEFT - 10, colours.second);
}

const shadeOf = task => colours.shades[task % colours.shades.length];
const fillOf = task => run.tasks[task].kind === "lc" ? shadeOf(task).full : shadeOf(task).pale;
const inkOn = task => run.tasks[task].kind === "lc" ? shadeOf(task).on : colours.ink;

// What is drawn over and over to fill a place: stripes of what is being left, dots of what is banned.
function pattern(name, colour, ground, mark) {
  const key = `${name} ${colour} ${ground}`;
  if (!patterns.has(key)) {
    const tile = Object.assign(document.createElement("canvas"), {width: 6, height: 6});
    const own = tile.getContext("2d");
    own.fillStyle = ground;
    own.fillRect(0, 0, 6, 6);
    own.strokeStyle = own.fillStyle = colour;
    mark(own);
    patterns.set(key, pen.createPattern(tile, "repeat"));
  }
  return patterns.get(key);
}

function stripes(own) {
  own.lineWidth = 2;
  own.beginPath();
  for (const at of [-6, 0, 6]) {
    own.moveTo(at - 1, 7);
    own.lineTo(at + 7, -1);
  }
  own.stroke();
}

const leavingOf = task => pattern("stripes", shadeOf(task).edge, shadeOf(task).pale, stripes);
const bannedOf = () => pattern("dots", colours.second, colours.lane, own => {
  own.fillRect(1, 1, 2, 2);
  own.fillRect(4, 4, 2, 2);
});

// The passes that are shown.
const firstShown = () => passAtPlace(view.first);
const lastShown = () => passAtPlace(view.last - 1e-9);

// Neighbouring passes that are alike, as [first, beyond].
function alike(first, last, of) {
  const parts = [];
  for (let at = first; at <= last; at++) {
    const key = of(at), part = parts[parts.length - 1];
    if (part && part.key === key) part.beyond = at + 1; else parts.push({key, first: at, beyond: at + 1});
  }
  return parts;
}

function drawWhole(lane) {
  const wide = place => LEFT + (place - FIRST_PLACE) / (lastPlace() - FIRST_PLACE) * across();
  fill(LEFT, lane.top, across(), lane.height, colours.lane);
  const booked = at => run.passes[at].tasks.map(it => it.held + it.leaving).join();
  for (const part of alike(0, run.passes.length - 1, booked)) {
    const x = wide(scale.edges[part.first]), to = wide(scale.edges[part.beyond]);
    run.passes[part.first].tasks.reduce((below, it, task) => {
      const high = (it.held + it.leaving) / run.cores * lane.height;
      fill(x, below - high, to - x, high, fillOf(task));
      return below - high;
    }, lane.top + lane.height);
  }
  pen.strokeStyle = colours.ink;
  pen.lineWidth = 1.5;
  pen.strokeRect(wide(view.first), lane.top - 1, wide(view.last) - wide(view.first), lane.height + 2);
  pen.lineWidth = 1;
}

// Steps of passes at which they are numbered: 1, 2, 5, 10 and so on, so far apart that the numbers have room.
function stepOf(room) {
  const passes = lastShown() - firstShown() + 1, least = passes / Math.max(across() / room, 1);
  const ten = 10 ** Math.floor(Math.log10(Math.max(least, 1)));
  return [1, 2, 5, 10].map(it => it * ten).find(it => it >= least);
}

function drawPasses(lane) {
  const step = stepOf(92);
  for (let pass = Math.ceil(firstShown() / step) * step; pass <= lastShown(); pass += step) {
    const x = xOfPass(pass);
    if (x < LEFT - 1) continue;
    line(x, lane.top + 2, x, paper.height, colours.grid);
    words(`${pass}`, x + 3, lane.top + 13, 88, colours.ink);
    words(run.passes[pass].clockText, x + 3, lane.top + 28, 88, colours.second);
  }
}

function drawTask(lane) {
  const task = run.tasks[lane.task], bottom = lane.top + lane.height - 5;
  const one = (lane.height - 9) / Math.max(task.limit, 1);
  fill(LEFT, bottom - one * task.limit, across(), one * task.limit, colours.lane);
  const key = at => Object.values(run.passes[at].tasks[lane.task].cells).slice(6).join();
  for (const part of alike(firstShown(), lastShown(), key)) {
    const it = run.passes[part.first].tasks[lane.task], x = xOfPass(part.first), wide = xOfPass(part.beyond) - x;
    fill(x, bottom - one * it.held, wide, one * it.held, fillOf(lane.task));
    fill(x, bottom - one * (it.held + it.leaving), wide, one * it.leaving, leavingOf(lane.task));
    if (it.isCongested) fill(x, bottom + 1, wide, 4, colours.ink);
    if (it.cap !== null) line(x, bottom - one * it.cap, x + wide, bottom - one * it.cap, colours.ink);
  }
  if (task.guaranteed) {
    line(LEFT, bottom - one * task.guaranteed, LEFT + across(), bottom - one * task.guaranteed, colours.second, [5, 4]);
  }
}

function drawBandwidth(lane) {
  const bottom = lane.top + lane.height, most = Math.max(run.limit, ...run.passes.map(it => it.figure));
  const high = figure => figure / most * (lane.height - 4);
  fill(LEFT, lane.top, across(), lane.height, colours.lane);
  for (const part of alike(firstShown(), lastShown(), at => run.passes[at].figure)) {
    const x = xOfPass(part.first), colour = part.key > run.limit ? colours.ink : colours.figure;
    fill(x, bottom - high(part.key), xOfPass(part.beyond) - x, high(part.key), colour);
  }
  line(LEFT, bottom - high(run.limit), LEFT + across(), bottom - high(run.limit), colours.second, [5, 4]);
}

const yOfTime = (lane, time) => lane.top + lane.height - 3 - time / lane.most * (lane.height - 8);

function drawResponses(lane) {
  fill(LEFT, lane.top, across(), lane.height, colours.lane);
  for (const it of lane.own) {
    const x = xOf(placeOfClock(it.arrived)), y = yOfTime(lane, timeOf(it));
    if (x < LEFT - 3 || x > LEFT + across() + 3) continue;
    drawPoint(x, y, it.answered === null, shadeOf(lane.task).line);
    if (chosen.request === it) ring(x, y);
  }
}

function drawPoint(x, y, isPending, colour) {
  pen.beginPath();
  if (isPending) {
    pen.moveTo(x - 4, y + 3);
    pen.lineTo(x, y - 4);
    pen.lineTo(x + 4, y + 3);
    pen.closePath();
    pen.strokeStyle = colour;
    pen.stroke();
  } else {
    pen.arc(x, y, 2.6, 0, 2 * Math.PI);
    pen.fillStyle = colour;
    pen.fill();
  }
}

function ring(x, y) {
  pen.strokeStyle = colours.ink;
  pen.lineWidth = 2;
  pen.beginPath();
  pen.arc(x, y, 6, 0, 2 * Math.PI);
  pen.stroke();
  pen.lineWidth = 1;
}

function drawCore(lane) {
  fill(LEFT, lane.top, across(), lane.height, colours.lane);
  for (const span of run.ofCore[lane.core]) {
    const x = xOfPass(span.from), to = xOfPass(endOf(span));
    if (to < LEFT || x > LEFT + across()) continue;
    drawSpan(lane, span, Math.max(x, LEFT), Math.min(to, LEFT + across()));
  }
}

function drawSpan(lane, span, x, to) {
  const isBan = span.state === "banned", top = isBan ? lane.top + lane.height - 5 : lane.top + 1;
  const high = isBan ? 4 : lane.height - (span.hasBan ? 6 : 2);
  const colour = isBan ? bannedOf() : span.state === "leaving" ? leavingOf(span.task) : fillOf(span.task);
  fill(x, top, Math.max(to - x, 0.5), high, colour);
  if (to - x > 3 && !isBan) fill(x, top, 1, high, shadeOf(span.task).edge);
  if (!isBan && to - x > 14) drawSign(span, x, top, to - x, high);
  if (chosen.span === span) {
    pen.strokeStyle = colours.ink;
    pen.lineWidth = 2;
    pen.strokeRect(x + 1, top, Math.max(to - x - 2, 2), high);
    pen.lineWidth = 1;
  }
}

// What a span may be labelled with, the longest first: the thread that holds the core; of one that is being left why.
const signsOf = span => span.state === "held" ? [`thread ${span.thread}`, `${span.thread}`]
  : [span.cause === "preempt" ? `for ${nameOf(Number(span.cells["for task"]))}` : span.cause];

// The longest label that has room, whole; none where none has.
function signOf(span, room) {
  pen.font = FONT;
  return signsOf(span).find(it => pen.measureText(it).width <= room) || "";
}

// The label of a span; of one that is being left on a plain ground.
function drawSign(span, x, top, room, high) {
  const text = signOf(span, room - 8);
  if (!text) return;
  pen.font = FONT;
  if (span.state === "leaving") {
    fill(x + 3, top + 1, pen.measureText(text).width + 4, high - 2, shadeOf(span.task).pale);
  }
  pen.fillStyle = span.state === "held" ? inkOn(span.task) : colours.ink;
  pen.fillText(text, x + 5, top + 11);
}

function drawChosen() {
  if (chosen.pass === undefined) return;
  const x = Math.max(xOfPass(chosen.pass), LEFT), to = Math.min(xOfPass(chosen.pass + 1), LEFT + across());
  if (to < LEFT || x > LEFT + across()) return;
  pen.globalAlpha = 0.16;
  fill(x, lanes[1].top, Math.max(to - x, 1), paper.height, colours.ink);
  pen.globalAlpha = 1;
}

function drawRequest() {
  const it = chosen.request;
  if (!it) return;
  for (const clock of [it.arrived, it.begun, it.answered].filter(one => one !== null)) {
    const x = xOf(placeOfClock(clock));
    if (x >= LEFT && x <= LEFT + across()) line(x, lanes[1].top, x, paper.height, colours.ink, [2, 3]);
  }
}

function drawLane(lane) {
  drawLabel(lane);
  pen.save();
  pen.beginPath();
  pen.rect(LEFT - 4, 0, across() + 8, paper.height);
  pen.clip();
  lane.draw(lane);
  pen.restore();
}

function draw() {
  const ratio = window.devicePixelRatio || 1;
  paper.width = canvas.clientWidth;
  canvas.style.height = `${paper.height}px`;
  canvas.width = Math.round(paper.width * ratio);
  canvas.height = Math.round(paper.height * ratio);
  pen.setTransform(ratio, 0, 0, ratio, 0, 0);
  fill(0, 0, paper.width, paper.height, colours.ground);
  lanes.forEach(drawLane);
  drawChosen();
  drawRequest();
  tellShown();
}

let isDrawn = true;
function drawSoon() {
  if (isDrawn) requestAnimationFrame(() => { isDrawn = true; draw(); });
  isDrawn = false;
}

function tellShown() {
  const first = firstShown(), last = lastShown(), all = run.passes.length;
  const shown = document.getElementById("shown");
  shown.textContent = last - first + 1 === all ? `all ${all.toLocaleString("en")} passes`
    : `passes ${first} to ${last} of ${all.toLocaleString("en")}`;
}
