// What stands at a place on the lanes, by pointer and by keys.

const laneAt = y => lanes.find(it => y >= it.top - 1 && y < it.top + it.height + 1);

function spanAt(core, pass, isLow = false) {
  const there = run.ofCore[core].filter(it => it.from <= pass && pass < endOf(it));
  const ban = there.find(it => it.state === "banned"), span = there.find(it => it.state !== "banned");
  return isLow ? ban || span : span || ban;
}

// The point of a response that is nearest, within some pixels.
function requestAt(lane, x, y) {
  const near = (it, most) => Math.hypot(xOf(placeOfClock(it.arrived)) - x, yOfTime(lane, timeOf(it)) - y) < most;
  return [4, 9].map(most => lane.own.find(it => near(it, most))).find(it => it);
}

// The address of what stands at a point of the canvas.
function addressAt(x, y) {
  const lane = laneAt(y);
  if (!lane || x < LEFT || x > LEFT + across()) return "";
  const pass = passAtPlace(placeAt(x));
  if (lane.kind === "core") {
    const span = spanAt(lane.core, pass, y > lane.top + lane.height - 6);
    if (span) return `span=${span.index}`;
  }
  const request = lane.kind === "responses" ? requestAt(lane, x, y) : undefined;
  if (request) return `request=${request.id}`;
  return lane.task === undefined ? `pass=${pass}` : `pass=${pass}&task=${lane.task}`;
}

// What is said of it where the pointer is.
function saidOf(address) {
  const {kind, span, request, pass, task} = choiceOf(address);
  if (kind === "span") {
    const lasts = span.to === null ? "to the end" : `to pass ${span.to}${atClock(span.to)}`;
    return `${titleOf(span)}\nfrom pass ${span.from}${atClock(span.from)} ${lasts}`;
  }
  if (kind === "request") {
    return `request ${request.id} of ${nameOf(request.task)}, came at ${request.cells.arrived}\n`
      + `${request.pending === null ? "response" : "pending for"} ${timeOf(request)} ${unit()}`;
  }
  if (kind !== "pass") return "";
  const it = run.passes[pass];
  const own = task === undefined ? `bandwidth ${it.figureText}` : `${nameOf(task)} holds ${it.tasks[task].held}, `
    + `leaves ${it.tasks[task].leaving}; delay ${it.tasks[task].cells.delay}`;
  return `pass ${pass}${atClock(pass)}\n${own}`;
}

// The middle of what an address names, on the page; it is brought into view first.
function pointOf(address) {
  const {kind, span, request, pass, task} = choiceOf(address);
  if (kind === "span") bring(scale.edges[span.from], scale.edges[endOf(span)]);
  const box = canvas.getBoundingClientRect(), is = (it, other) => it.kind === other;
  const lane = lanes.find(it => kind === "span" ? is(it, "core") && it.core === span.core
    : kind === "request" ? is(it, "responses") && it.task === request.task
      : task === undefined ? is(it, "passes") : is(it, "task") && it.task === task);
  const x = kind === "span" ? (xOfPass(span.from) + xOfPass(endOf(span))) / 2
    : kind === "request" ? xOf(placeOfClock(request.arrived)) : (xOfPass(pass) + xOfPass(pass + 1)) / 2;
  const y = kind === "request" ? yOfTime(lane, timeOf(request))
    : kind === "span" && span.state === "banned" ? lane.top + lane.height - 3 : lane.top + lane.height / 2 - 2;
  return [box.left + x, box.top + y];
}

// The lane of what is chosen.
function laneOfChosen() {
  if (chosen.span) return lanes.find(it => it.kind === "core" && it.core === chosen.span.core);
  if (chosen.request) return lanes.find(it => it.kind === "responses" && it.task === chosen.request.task);
  return lanes.find(it => chosen.task === undefined ? it.kind === (chosen.isFigure ? "bandwidth" : "passes")
    : it.kind === "task" && it.task === chosen.task);
}

// What comes so many places after what is chosen, in its lane.
function step(by) {
  const lane = laneOfChosen();
  const row = chosen.span ? run.ofCore[lane.core] : chosen.request ? lane.own : undefined;
  if (!row) return `pass=${clamped((chosen.pass ?? -by) + by, run.passes)}${ofTask(lane)}`;
  const it = row[clamped(row.indexOf(chosen.span || chosen.request) + by, row)];
  return chosen.span ? `span=${it.index}` : `request=${it.id}`;
}

const clamped = (at, of) => Math.min(Math.max(at, 0), of.length - 1);
const ofTask = lane => lane.task === undefined ? "" : `&task=${lane.task}`;

// What stands at the chosen pass in the next lane that has something there. A request is chosen by when it came, and
// shows another pass: the lanes after it go on with the pass before.
let kept = {address: "", pass: 0};

function stepLane(by) {
  const pass = kept.address === location.hash.slice(1) ? kept.pass : chosen.pass ?? firstShown();
  for (let at = lanes.indexOf(laneOfChosen()) + by; at >= 1 && at < lanes.length; at += by) {
    const address = inLane(lanes[at], pass);
    if (address) {
      kept = {address, pass};
      return address;
    }
  }
  return location.hash.slice(1) || `pass=${pass}`;
}

function inLane(lane, pass) {
  if (lane.kind === "core") {
    const span = spanAt(lane.core, pass);
    return span ? `span=${span.index}&pass=${Math.max(pass, span.from)}` : "";
  }
  if (lane.kind === "responses") {
    const near = lane.own.find(it => it.arrived >= run.passes[pass].clock) || lane.own[lane.own.length - 1];
    return near ? `request=${near.id}` : "";
  }
  return lane.kind === "bandwidth" ? "" : `pass=${pass}${ofTask(lane)}`;
}

const KEYS = {
  ArrowRight: () => go(step(1)), ArrowLeft: () => go(step(-1)), ArrowDown: () => go(stepLane(1)),
  ArrowUp: () => go(stepLane(-1)), Home: () => go("pass=0"), End: () => go(`pass=${run.passes.length - 1}`),
  Escape: () => go(""), "+": () => zoom(0.5), "=": () => zoom(0.5), "-": () => zoom(2), 0: showWhole,
  a: () => move(-0.25), d: () => move(0.25), w: () => zoom(0.5), s: () => zoom(2)};

function key(event) {
  const does = KEYS[event.key];
  if (!does || event.ctrlKey || event.metaKey || event.altKey) return;
  event.preventDefault();
  does();
}
