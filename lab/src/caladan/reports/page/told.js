// What is chosen, and what is told of it beside the lanes: its facts, the report of its pass, why, and the command that
// says it again. The address has the choice, so that each has its link.

function made(tag, how, ...inside) {
  const it = Object.assign(document.createElement(tag), how);
  it.append(...inside);
  return it;
}

const listed = facts => made("dl", {}, ...facts.filter(([, value]) => value !== "").flatMap(([name, value]) =>
  [made("dt", {textContent: name}), made("dd", {textContent: value})]));

function link(address, text, isCurrent = false) {
  const it = made("a", {href: `#${address}`, textContent: text});
  if (isCurrent) it.setAttribute("aria-current", "true");
  return it;
}

const moments = links => made("ul", {className: "moments"}, ...links.map(it => made("li", {}, it)));
const atClock = pass => pass < run.passes.length ? ` (${run.passes[pass].clockText} ${unit()})` : "";

// The lines of an explanation that `--core` keeps: those of the core, bans of its sibling, each task's claim to it.
function linesOfCore(text, core) {
  let part = "", isKept = true;
  return text.split("\n").filter(line => {
    if (/^\d /.test(line)) part = line[0];
    const own = /^  core (\d+):/.exec(line), candidate = /^    core (\d+):/.exec(line);
    const action = /^    -> \w+ core (\d+)\b/.exec(line);
    if (/^\d /.test(line) || part === "" || part === "4") return true;
    if (part === "5") return !candidate || Number(candidate[1]) === core;
    if (own) isKept = Number(own[1]) === core || (part === "3" && (Number(own[1]) ^ 1) === core);
    return own || !action ? isKept : isKept || Number(action[1]) === core;
  }).join("\n");
}

// Whether lines tell of a task, as a line of an explanation begins to tell of one or ends.
function tellsOf(task) {
  let isOf = false;
  return line => {
    if (!line.startsWith("    ")) isOf = line.startsWith(`  task ${task} `) || line.startsWith(`  task ${task}:`);
    return isOf;
  };
}

function lineOf(text, isAbout) {
  const kind = /^\d /.test(text) ? "part" : text.startsWith("    ->") ? "does" : "";
  return made("span", {className: `line ${kind} ${isAbout ? "about" : ""}`, textContent: `${text}\n`});
}

function linesIn(text, task) {
  const isAbout = task === undefined ? () => false : tellsOf(task);
  return made("pre", {}, ...text.replace(/\n$/, "").split("\n").map(line => lineOf(line, isAbout(line))));
}

const commandOf = words => run.command.join(words);

// The report of a pass, and why: all of it, or of a core alone; the lines of a task are marked.
function whyParts(pass, core, task) {
  const parts = [made("h3", {textContent: `Report of pass ${pass}`}),
    made("pre", {id: "report", textContent: run.reports[pass]}), made("h3", {textContent: "Why"})];
  const words = `--pass ${pass}${core === undefined ? "" : ` --core ${core}`}`;
  const text = why[pass];
  if (text === null || text === undefined) {
    parts.push(made("p", {id: "why", textContent: run.unexplained}));
  } else {
    const pre = linesIn(core === undefined ? text : linesOfCore(text, core), task);
    pre.id = "why";
    parts.push(pre);
  }
  return [...parts, made("h3", {textContent: "The command that says it again"}),
    made("code", {id: "command", textContent: commandOf(words), tabIndex: 0})];
}

function tellSpan() {
  const {span, pass, isWhole} = chosen, {cells} = span;
  const first = span.before || span, last = span.after || span, isBan = span.state === "banned";
  const at = (name, which) => link(`span=${which.span.index}&pass=${which.pass}${isWhole ? "&whole" : ""}`,
    `${name} in pass ${which.pass}`, which.pass === pass && which.span === span);
  const links = [at(isBan ? "banned" : "granted", {span: first, pass: first.from})];
  if (last !== first) links.push(at("revoked", {span: last, pass: last.from}));
  if (last.to !== null) links.push(at(isBan ? "unbanned" : "freed", {span: last, pass: last.to}));
  const facts = Object.entries(cells).filter(([name]) => name !== "core" && name !== "thread");
  const switchTo = link(`span=${span.index}&pass=${pass}${isWhole ? "" : "&whole"}`,
    isWhole ? `only core ${span.core}` : "the whole pass");
  return [made("h2", {textContent: titleOf(span)}), listed(facts), moments(links),
    ...whyParts(pass, isWhole ? undefined : span.core), moments([switchTo, link(`pass=${pass}`, `pass ${pass}`)])];
}

const titleOf = span => `Core ${span.core}: ${span.state} ${span.state === "banned" ? "for" : "by"} thread `
  + `${span.thread} of ${nameOf(span.task)}`;

function tellPass() {
  const {pass, task} = chosen, it = run.passes[pass];
  const mine = task === undefined ? "" : `&task=${task}`, steps = [];
  if (pass > 0) steps.push(link(`pass=${pass - 1}${mine}`, "the pass before"));
  if (pass + 1 < run.passes.length) steps.push(link(`pass=${pass + 1}${mine}`, "the next one"));
  const head = ["", "delay", "congested", "held", "leaving", "cap"];
  const rows = it.tasks.map(({cells}, n) => made("tr", {ariaSelected: String(n === task)},
    made("td", {}, link(`pass=${pass}&task=${n}`, nameOf(n))),
    ...head.slice(1).map(name => made("td", {textContent: cells[name]}))));
  return [made("h2", {textContent: `Pass ${pass}`}),
    listed([["clock", `${it.clockText} ${unit()}`], ["bandwidth", `${it.figureText}, limit ${run.limit}`]]),
    made("table", {}, made("tr", {}, ...head.map(name => made("th", {textContent: name}))), ...rows),
    moments(steps), ...whyParts(pass, undefined, task)];
}

// The passes of a request: the one before which it came, the last before it was begun or else of the run, in which its
// task stood as it did while it waited, and those before which it was begun and answered.
function passesOfRequest(it) {
  const last = run.passes.length - 1, upTo = clock => clock === null ? null : Math.max(passAtClock(clock), 0);
  const before = clock => clock === null ? last : Math.max(passAtClock(clock - 1), 0);
  return {came: upTo(it.arrived), waited: before(it.begun), begun: upTo(it.begun), answered: upTo(it.answered)};
}

const waitedAddress = it => `request=${it.id}`;

function tellRequest() {
  const {request, task, pass} = chosen, at = passesOfRequest(request);
  const facts = Object.entries(request.cells).filter(([name]) => name !== "id" && name !== "task");
  const word = request.pending === null ? "response" : "waits for";
  const waits = request.begun === null || request.begun > request.arrived;
  const links = [["came", at.came], [waits ? "waited" : "", at.waited], ["begun", at.begun], ["answered", at.answered]]
    .filter(([name, which]) => name && which !== null)
    .map(([name, which]) => link(`request=${request.id}&pass=${which}`, `${name}: pass ${which}`, which === pass));
  return [made("h2", {textContent: `Request ${request.id} of ${nameOf(request.task)}`}),
    listed([[word, `${timeOf(request)} ${unit()}`], ...facts]), moments(links), ...whyParts(pass, undefined, task)];
}

function tellNothing() {
  return [made("h2", {textContent: "Nothing is chosen"}), made("p", {textContent:
    "Click on a span, a ban, a point of a response or a pass, or on a request in the table below."}),
    ...(run.verdict ? [made("h3", {textContent: "The audit"}), linesIn(run.verdict)] : [])];
}

const TELLERS = {span: tellSpan, pass: tellPass, request: tellRequest};

function tell() {
  const told = document.getElementById("told");
  told.replaceChildren(...(TELLERS[chosen.kind] || tellNothing)());
  const about = told.querySelector(".about");
  told.scrollTop = about ? about.offsetTop - told.offsetTop - 40 : 0;
  for (const row of document.querySelectorAll("#slow tr[data-request]")) {
    row.setAttribute("aria-selected", String(chosen.request ? row.dataset.request === chosen.request.id : false));
  }
}

// What an address chooses; nothing where it names what is not there.
function choiceOf(address) {
  const asked = new URLSearchParams(address.replace(/^#/, "")), number = name => Number(asked.get(name));
  const isPass = asked.has("pass") && Number.isInteger(number("pass")) && run.passes[number("pass")] !== undefined;
  const pass = isPass ? number("pass") : undefined;
  const span = asked.has("span") ? run.spans[number("span")] : undefined;
  if (span) return {kind: "span", span, pass: pass ?? span.from, isWhole: asked.has("whole")};
  const request = asked.has("request") ? run.byId.get(asked.get("request")) : undefined;
  if (request) {
    return {kind: "request", request, task: request.task, pass: pass ?? passesOfRequest(request).waited};
  }
  if (!isPass) return {};
  const task = asked.has("task") && run.tasks[number("task")] ? number("task") : undefined;
  return {kind: "pass", pass, task};
}

function choose() {
  chosen = choiceOf(location.hash);
  if (chosen.span) bring(scale.edges[chosen.span.from], scale.edges[endOf(chosen.span)]);
  if (chosen.request) {
    const {arrived, answered} = chosen.request;
    bring(placeOfClock(arrived) - 2, (answered === null ? lastPlace() : placeOfClock(answered)) + 2);
  }
  if (chosen.pass !== undefined) bring(scale.edges[chosen.pass], scale.edges[chosen.pass + 1]);
  tell();
  drawSoon();
}

// Goes to an address, and tells of it at once.
function go(address) {
  history.replaceState(null, "", `#${address}`);
  choose();
}
