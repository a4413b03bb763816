"use strict";
// The facts of the run: what the programs tell, as they tell it. CSV and texts stand deflated in the page.

async function unpacked(id) {
  const letters = atob(document.getElementById(id).textContent.trim());
  const bytes = Uint8Array.from(letters, it => it.charCodeAt(0));
  const stream = new Blob([bytes]).stream().pipeThrough(new DecompressionStream("deflate"));
  return JSON.parse(await new Response(stream).text());
}

// The rows of a CSV without quotes, each cell by the name of its column without the unit.
function rowsOf(csv) {
  const [head, ...lines] = csv.split("\n").filter(it => it);
  const names = (head || "").split(",").map(it => it.replace(/ \[.*\]$/, ""));
  return lines.map(line => {
    const cells = line.split(",");
    return Object.fromEntries(names.map((name, n) => [name, cells[n]]));
  });
}

const maybe = cell => cell === "" ? null : Number(cell);

function spanOf(cells, index) {
  return {cells, index, core: Number(cells.core), thread: Number(cells.thread), task: Number(cells.task),
    state: cells.state, cause: cells.cause, from: Number(cells["from pass"]), to: maybe(cells["to pass"])};
}

function requestOf(cells) {
  return {cells, id: cells.id, task: Number(cells.task), arrived: Number(cells.arrived), begun: maybe(cells.begun),
    answered: maybe(cells.answered), pending: maybe(cells.pending)};
}

// How long a request took, or for how long it is pending.
const timeOf = request => request.pending === null ? Math.max(request.answered - request.arrived, 0) : request.pending;

function standingOf(cells) {
  return {cells, isCongested: cells.congested === "1", held: Number(cells.held), leaving: Number(cells.leaving),
    cap: maybe(cells.cap)};
}

// The passes of a series: of each its clock, its figure, and how each task stands.
function passesOf(rows, tasks) {
  const passes = [];
  for (let at = 0; at < rows.length; at += tasks) {
    const own = rows.slice(at, at + tasks);
    passes.push({clock: Number(own[0].clock), clockText: own[0].clock, figure: Number(own[0].bandwidth),
      figureText: own[0].bandwidth, tasks: own.map(standingOf)});
  }
  return passes;
}

// Which span a revoked one goes on as: the row in which the same core is being left from the pass where it ends.
function joined(spans) {
  const leaving = new Map(spans.filter(it => it.state === "leaving").map(it => [`${it.core} ${it.from}`, it]));
  for (const it of spans) {
    const after = it.state === "held" && it.to !== null ? leaving.get(`${it.core} ${it.to}`) : undefined;
    if (after && after.thread === it.thread) [it.after, after.before] = [after, it];
  }
  return spans;
}

// Notes which spans of a core stand while a ban of it does. They are in the order of their first passes.
function withBans(own, passes) {
  const end = it => it.to === null ? passes : it.to, bans = own.filter(it => it.state === "banned");
  for (const it of own) it.hasBan = it.state !== "banned" && bans.some(ban => ban.from < end(it) && end(ban) > it.from);
  return own;
}

function runOf(facts) {
  const passes = passesOf(rowsOf(facts.series), facts.tasks.length);
  const spans = joined(rowsOf(facts.spans).map(spanOf));
  const requests = facts.requests ? rowsOf(facts.requests).map(requestOf) : [];
  const limit = facts.bandwidthLimit;
  return {...facts, passes, spans, requests, limit, byId: new Map(requests.map(it => [it.id, it])),
    ofCore: [...Array(facts.cores).keys()].map(core => withBans(spans.filter(it => it.core === core)
      .sort((one, other) => one.from - other.from), passes.length))};
}

const endOf = span => span.to === null ? run.passes.length : span.to;
const unit = () => run.tick || "ticks";
const nameOf = task => run.tasks[task].label;
