// The picture: what of it is in sight is drawn, as SVG; and a strip with the whole trace.

data.lines.forEach((line, number) => { line.number = number; });
const lanes = data.lanes.map((lane, number) => ({ ...lane, number, lines: [] }));
for (const line of data.lines) lanes[line.lane].lines.push(line);
const ORDER = { clock: 0, process: 1, files: 2, kqueue: 3 };
lanes.sort((a, b) => ORDER[a.kind] - ORDER[b.kind] || a.number - b.number);
for (const lane of lanes.filter((it) => it.kind === "process")) {
  const rank = (line) => (line.name === "process" ? -1 : Number(line.name.slice(3)));
  lane.lines.sort((a, b) => rank(a) - rank(b));
}

// The rows to show where these places are in sight. The clock needs no heading.
function rowsBetween(from, to) {
  const isShown = SHOWN[find("lines").value];
  const found = [];
  for (const lane of lanes) {
    const lines = lane.lines.filter((it) => isShown(it, from, to));
    if (!lines.length) continue;
    if (lane.kind !== "clock") found.push({ lane });
    lines.forEach((line) => found.push({ lane, line }));
  }
  return found;
}

const x = (place, left) => LABEL + (place - first) * COLUMN - left;

const GLYPHS = {
  registered: '<circle class="m-back" r="5.5"/><path class="m-ink" d="M-3 0H3M0 -3V3"/>',
  changed: '<path class="m-back" d="M0 -6L6 0L0 6L-6 0Z"/>',
  enabled: '<path class="m-back" d="M-4 -5L5 0L-4 5Z"/>',
  disabled: `<rect class="m-back" x="-5.5" y="-5.5" width="11" height="11"/>
    <path class="m-ink" d="M-2 -3V3M2 -3V3"/>`,
  told: '<circle class="m-told" r="5"/>',
  heard: '<circle class="m-heard" r="2.5"/>',
  idle: '<circle class="m-back" r="5"/><path class="m-ink" d="M-3.5 3.5L3.5 -3.5"/>',
  returned: '<path class="m-returned" d="M-8 -7H8L0 8Z"/>',
  cleared: '<path class="m-returned" d="M-8 -7H8L0 8Z"/><text class="m-letter" y="1">C</text>',
  dispatched: '<path class="m-returned" d="M-8 -7H8L0 8Z"/><text class="m-letter" y="1">D</text>',
  oneshot: '<path class="m-returned" d="M-8 -7H8L0 8Z"/><text class="m-letter" y="1">1</text>',
  gone: '<path class="m-ink" d="M-5 -5L5 5M-5 5L5 -5"/>',
  done: '<rect class="m-told" x="-4" y="-4" width="8" height="8"/>',
  wrong: `<rect class="m-wrong" x="-9" y="-9" width="18" height="18" rx="3"/>
    <text class="m-alarm" y="5">!</text>`,
};

const LEGEND = [
  ["registered", "registered"], ["changed", "changed"], ["enabled", "enabled"], ["disabled", "disabled"],
  ["told", "told: it became active"], ["heard", "told, nothing became of it"], ["returned", "returned"],
  ["cleared", "and reset by CLEAR"], ["dispatched", "and disabled by DISPATCH"], ["oneshot", "and deleted by ONESHOT"],
  ["idle", "looked at, found idle"], ["gone", "deleted: DELETE, close, exit"], ["done", "done by a process"],
];
const BARS = [
  ['<line class="registered" x1="0" y1="8" x2="26" y2="8"/>', "registered"],
  ['<line class="registered off" x1="0" y1="8" x2="26" y2="8"/>', "disabled"],
  ['<rect class="queued" x="0" y="1" width="26" height="14"/>', "active, with its turn in the queue"],
  ['<rect class="held" x="1" y="2" width="24" height="12"/>', "active, but disabled"],
  ['<rect class="holds" x="1" y="3" width="24" height="10"/>', "not active, its condition holds"],
];

function bar(from, to, y, left) {
  const begin = Math.max(x(from, left), LABEL - 2), end = x(to, left);
  return end > begin ? { begin, width: end - begin, y: y + 4, height: ROW - 8 } : null;
}

function drawnText(line, row, next, y, left) {
  const at = bar(row[0], next, y, left);
  if (!row[1] || !at) return "";
  const text = data.texts[row[1] - 1], most = Math.floor((at.width - 6) / 6.1);
  const shown = text.length <= most ? text : most > 2 ? text.slice(0, most - 1) + "…" : "";
  const box = `<rect class="thing" x="${at.begin}" y="${y + 2}" width="${at.width}" height="${ROW - 4}"/>`;
  const inside = `<text x="${at.begin + 4}" y="${y + 15}">${escaped(shown)}</text>`;
  return `<g><title>${escaped(`${line.name}: ${text}`)}</title>${box}${inside}</g>`;
}

function drawnState(line, row, next, y, left) {
  const at = bar(row[0], next, y, left), bits = row[1];
  if (!(bits & REGISTERED) || !at) return "";
  const off = bits & DISABLED ? " off" : "", middle = y + ROW / 2;
  const end = at.begin + at.width;
  let out = `<line class="registered${off}" x1="${at.begin}" y1="${middle}" x2="${end}" y2="${middle}"/>`;
  const kind = bits & QUEUED ? "queued" : bits & ACTIVE ? "held" : bits & HOLDS ? "holds" : "";
  if (kind) out += `<rect class="${kind}" x="${at.begin}" y="${at.y}" width="${at.width}" height="${at.height}"/>`;
  return `<g><title>${escaped(`${line.name}: ${data.texts[row[2]]}`)}</title>${out}</g>`;
}

function drawnTurns(line, row, next, y, left, from, to) {
  if (line.kind !== "kevent" || !(row[1] & QUEUED)) return "";
  let out = "";
  for (let place = Math.max(row[0], from); place < Math.min(next, to + 1); place++) {
    const turn = positionsAt(line.lane, place).get(line.number);
    const at = x(place, left) + COLUMN - 6;
    if (turn && marksAt(line, place).length < 2) out += `<text class="turn" x="${at}" y="${y + 15}">${turn}</text>`;
  }
  return out;
}

function drawnMarks(line, y, left, from, to) {
  let out = "";
  for (let place = from; place <= to; place++) {
    const marks = marksAt(line, place);
    marks.forEach(([, kind, text, op], index) => {
      const at = x(place, left) + 11 + (marks.length > 1 ? index * 15 - 5 : 0);
      const title = `<title>${escaped(`${line.name} at ${place} (${op}): ${data.texts[text]}`)}</title>`;
      out += `<g transform="translate(${at} ${y + ROW / 2})">${title}${GLYPHS[kind]}</g>`;
    });
  }
  return out;
}

function drawnLine(line, y, left, from, to) {
  let out = "";
  for (let i = Math.max(0, indexAt(line.states, from)); i < line.states.length && line.states[i][0] <= to; i++) {
    const row = line.states[i], next = i + 1 < line.states.length ? line.states[i + 1][0] : last + 1;
    const end = Math.min(next, to + 1);
    out += line.kind === "kevent" ? drawnState(line, row, end, y, left) : drawnText(line, row, end, y, left);
    out += drawnTurns(line, row, end, y, left, from, to);
  }
  return out + drawnMarks(line, y, left, from, to);
}

function drawnHead(left, from, to, width) {
  let out = `<rect class="ground" x="0" y="0" width="${width}" height="${HEAD}"/>`;
  for (let place = from; place <= to; place++) {
    const at = x(place, left), record = recordAt(place);
    if (place === here) out += `<rect class="here" x="${at}" y="0" width="${COLUMN}" height="${HEAD}"/>`;
    const size = Math.min(11, 45 / String(place).length);
    out += `<text x="${at + COLUMN / 2}" y="12" text-anchor="middle" style="font-size:${size}px">${place}</text>`;
    const mark = record[2] && record[2].impossible ? "✗ " : "";
    out += `<text transform="translate(${at + COLUMN / 2 + 4} ${HEAD - 4}) rotate(-90)">${mark}${record[0]}</text>`;
  }
  return out + `<line class="rule" x1="0" y1="${HEAD}" x2="${width}" y2="${HEAD}"/>`;
}

function drawnLabels(shown, height) {
  let out = `<rect class="ground" x="0" y="0" width="${LABEL - 2}" height="${height}"/>`;
  shown.forEach(({ row, y }) => {
    const name = row.line ? row.line.name : row.lane.title, most = 32;
    const short = row.line && name.length > most ? name.slice(0, most - 1) + "…" : name;
    if (!row.line) out += `<rect class="lane" x="0" y="${y}" width="${LABEL - 2}" height="${ROW}"/>`;
    const style = row.line ? 'x="16"' : 'x="6" class="lane-name"';
    out += `<text ${style} y="${y + 15}"><title>${escaped(name)}</title>${escaped(short)}</text>`;
  });
  out += `<rect class="ground" x="0" y="0" width="${LABEL - 2}" height="${HEAD}"/>`;
  return out + `<text class="pale" x="6" y="12">place</text><text class="pale" x="6" y="${HEAD - 8}">record</text>`;
}

const HATCH = '<defs><pattern id="hatch" width="6" height="6" patternUnits="userSpaceOnUse" '
  + 'patternTransform="rotate(45)"><rect width="6" height="6" fill="var(--ground)"/>'
  + '<rect width="3" height="6" fill="var(--held)"/></pattern></defs>';

// Draws what of the picture is in sight of a window of this size.
function draw(left, top, width, height) {
  if (!data.records.length) return;
  const from = Math.max(first, first + Math.floor(left / COLUMN));
  const to = Math.min(last, first + Math.ceil((left + width - LABEL) / COLUMN) - 1);
  rows = rowsBetween(from, to);
  const begin = Math.floor(top / ROW), shown = [];
  for (let i = begin; i < rows.length && (i - begin - 1) * ROW < height - HEAD; i++) {
    shown.push({ row: rows[i], y: HEAD + i * ROW - top });
  }
  let out = HATCH;
  if (here >= from && here <= to) {
    out += `<rect class="here" x="${x(here, left)}" y="0" width="${COLUMN}" height="${height}"/>`;
  }
  shown.forEach(({ row, y }) => {
    if (!row.line) out += `<rect class="lane" x="0" y="${y}" width="${width}" height="${ROW}"/>`;
    else out += drawnLine(row.line, y, left, from, to);
  });
  plot.setAttribute("width", width);
  plot.setAttribute("height", height);
  plot.setAttribute("viewBox", `0 0 ${width} ${height}`);
  plot.innerHTML = out + drawnHead(left, from, to, width) + drawnLabels(shown, height);
}

// What fits on a sheet of paper, round the present place.
function drawForPrint() {
  const columns = 25, most = 60;
  const begin = Math.max(first, Math.min(here - 12, last - columns + 1));
  const count = rowsBetween(begin, Math.min(last, begin + columns - 1)).length;
  draw((begin - first) * COLUMN, 0, LABEL + columns * COLUMN, HEAD + Math.min(count, most) * ROW + 4);
}

let isDrawing = false;
function redraw() {
  if (isDrawing) return;
  isDrawing = true;
  requestAnimationFrame(() => { isDrawing = false; drawInSight(); });
}

function drawInSight() {
  const { scrollLeft, scrollTop, clientWidth, clientHeight } = scroller;
  draw(scrollLeft, scrollTop, clientWidth, clientHeight);
  find("room").style.width = `${LABEL + data.records.length * COLUMN}px`;
  find("room").style.height = `${Math.max(HEAD + rows.length * ROW + 4, 1)}px`;
  drawOverview(scrollLeft, clientWidth);
}

// ---- the whole trace in a strip

function drawOverview(left, width) {
  const style = getComputedStyle(document.documentElement), ratio = window.devicePixelRatio || 1;
  const color = (name) => style.getPropertyValue(name).trim();
  overview.width = overview.clientWidth * ratio;
  overview.height = 26 * ratio;
  const pen = overview.getContext("2d"), high = overview.height;
  const scale = overview.width / Math.max(1, data.records.length);
  data.records.forEach(([op, , answer], index) => {
    if (op !== "kevent" && !(answer && answer.impossible)) return;
    const count = answer && answer.events ? answer.events.length : 0;
    pen.fillStyle = color(count ? "--returned" : "--rule");
    const tall = count ? high * 0.4 + Math.min(count, 8) * high * 0.06 : high * 0.3;
    pen.fillRect(index * scale, high - tall, Math.max(1, scale * 0.8), tall);
  });
  if (wrongPlace >= first && wrongPlace <= last) {
    pen.fillStyle = color("--wrong");
    pen.fillRect((wrongPlace - first) * scale - 1, 0, Math.max(4, scale), high);
  }
  pen.strokeStyle = color("--ink");
  pen.lineWidth = ratio;
  pen.strokeRect((left / COLUMN) * scale, 1, Math.max(3, ((width - LABEL) / COLUMN) * scale), high - 2);
  pen.fillStyle = color("--ink");
  pen.fillRect((here - first) * scale, 0, Math.max(2, ratio), high);
}
