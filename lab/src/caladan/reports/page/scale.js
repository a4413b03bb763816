// Places: a pass is as wide as it lasts, but at least half and at most four times the usual width, and the last one
// has the usual width. A clock has its place within its pass.

const LEAST_WIDTH = 0.5, MOST_WIDTH = 4;

function median(numbers) {
  const sorted = [...numbers].sort((one, other) => one - other);
  return sorted.length ? sorted[Math.floor((sorted.length - 1) / 2)] : 1;
}

function scaleOf(passes) {
  const clocks = passes.map(it => it.clock);
  const lasts = clocks.slice(1).map((it, n) => it - clocks[n]);
  const usual = median(lasts.filter(it => it > 0));
  const edges = [0];
  for (const it of [...lasts, usual]) {
    edges.push(edges[edges.length - 1] + Math.min(Math.max(it / usual, LEAST_WIDTH), MOST_WIDTH));
  }
  return {clocks, edges, usual, isToScale: lasts.every(it => it / usual >= LEAST_WIDTH && it / usual <= MOST_WIDTH)};
}

// The last of rising numbers that is no more than this; -1 where none is.
function lastUpTo(numbers, most) {
  let [low, high] = [0, numbers.length];
  while (low < high) {
    const middle = (low + high) >> 1;
    if (numbers[middle] <= most) low = middle + 1; else high = middle;
  }
  return low - 1;
}

const passAtClock = clock => lastUpTo(scale.clocks, clock);
const passAtPlace = place => Math.min(Math.max(lastUpTo(scale.edges, place), 0), run.passes.length - 1);

function placeOfClock(clock) {
  const at = passAtClock(clock);
  if (at < 0) return Math.max((clock - scale.clocks[0]) / scale.usual, -1);
  const next = at + 1 < scale.clocks.length ? scale.clocks[at + 1] : scale.clocks[at] + scale.usual;
  const part = next > scale.clocks[at] ? (clock - scale.clocks[at]) / (next - scale.clocks[at]) : 0;
  return scale.edges[at] + Math.min(part, 1) * (scale.edges[at + 1] - scale.edges[at]);
}

// The part of the run that is shown, in places.
const FIRST_PLACE = 0, LEAST_SHOWN = 3;
const lastPlace = () => scale.edges[scale.edges.length - 1];

function show(first, last) {
  const all = lastPlace() - FIRST_PLACE, size = Math.min(Math.max(last - first, Math.min(LEAST_SHOWN, all)), all);
  const begin = Math.min(Math.max(first, FIRST_PLACE), lastPlace() - size);
  view.first = begin;
  view.last = begin + size;
  drawSoon();
}

const showWhole = () => show(FIRST_PLACE, lastPlace());

function zoom(by, place) {
  const at = place === undefined ? (view.first + view.last) / 2 : place;
  show(at - (at - view.first) * by, at + (view.last - at) * by);
}

const move = part => {
  const by = (view.last - view.first) * part;
  const first = Math.min(Math.max(view.first + by, FIRST_PLACE), lastPlace() - (view.last - view.first));
  show(first, first + view.last - view.first);
};

// Brings places into view: not at all if they are there, else with as much again around them.
function bring(first, last) {
  if (first >= view.first && last <= view.last) return;
  const size = Math.max(view.last - view.first, (last - first) * 1.5), middle = (first + last) / 2;
  show(middle - size / 2, middle + size / 2);
}

const LEFT = 132, RIGHT = 12;
const across = () => Math.max(paper.width - LEFT - RIGHT, 50);
const xOf = place => LEFT + (place - view.first) / (view.last - view.first) * across();
const placeAt = x => view.first + (x - LEFT) / across() * (view.last - view.first);
const xOfPass = pass => xOf(scale.edges[pass]);
