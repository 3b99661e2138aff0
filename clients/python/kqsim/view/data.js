"use strict";
// The picture of a trace: data has lanes of lines, each with its states and marks by place (picture.py).
const data = JSON.parse(document.getElementById("data").textContent);
const [COLUMN, ROW, HEAD, LABEL] = [32, 22, 76, 200];
const [REGISTERED, DISABLED, ACTIVE, QUEUED, HOLDS] = [1, 2, 4, 8, 16];
const MOMENTS = 8;
const find = (id) => document.getElementById(id);
const scroller = find("scroll"), plot = find("plot"), told = find("told"), overview = find("overview");
const first = data.first, last = first + data.records.length - 1;
const wrongPlace = data.verdict && data.verdict.place;
let here = Math.max(first, Math.min(last, first));
let rows = [];

const escaped = (text) => String(text).replace(/[&<>"]/g, (it) => `&#${it.charCodeAt(0)};`);

// The index of the last row at a place or before it, or -1.
function indexAt(list, place) {
  let low = 0, high = list.length;
  while (low < high) {
    const middle = (low + high) >> 1;
    if (list[middle][0] <= place) low = middle + 1; else high = middle;
  }
  return low - 1;
}

const rowAt = (list, place) => list[indexAt(list, place)];
const recordAt = (place) => data.records[place - first];

function marksAt(line, place) {
  const found = [];
  for (let i = indexAt(line.marks, place); i >= 0 && line.marks[i][0] === place; i--) found.unshift(line.marks[i]);
  return found;
}

// Whether a line has another state, or a mark, at one of these places.
function hasNews(line, from, to) {
  const [state, mark] = [rowAt(line.states, to), rowAt(line.marks, to)];
  return Boolean((state && state[0] > first && state[0] >= from) || (mark && mark[0] >= from));
}

function isAlive(line, from, to) {
  const state = rowAt(line.states, from);
  return Boolean(state && state[1]) || hasNews(line, from, to);
}

const SHOWN = { news: hasNews, alive: isAlive, all: () => true };

// The queue of a kqueue behind a place; some are kept, so that none is far to be made.
const KEPT = 64;
const queuesKept = {};
const positions = new Map();

function queueAt(lane, place) {
  const { start, moves } = data.queues[lane];
  const kept = (queuesKept[lane] = queuesKept[lane] || [start]);
  const count = indexAt(moves, place) + 1;
  const begin = Math.min(kept.length - 1, Math.floor(count / KEPT));
  let queue = kept[begin];
  for (let i = begin * KEPT; i < count; i++) {
    const out = new Set(moves[i][1]);
    queue = queue.filter((it) => !out.has(it)).concat(moves[i][2]);
    if ((i + 1) % KEPT === 0) kept[(i + 1) / KEPT] = queue;
  }
  return queue;
}

function positionsAt(lane, place) {
  const key = `${lane} ${place}`;
  if (!positions.has(key)) {
    if (positions.size > 2000) positions.clear();
    positions.set(key, new Map(queueAt(lane, place).map((line, index) => [line, index + 1])));
  }
  return positions.get(key);
}
