// What is told of a place: its record, its answer, and what became of each kevent.

const nameOf = (event) => `${event.filter} ${event.ident}`;

function namesOf(answer) {
  if (answer.failed !== undefined) return `failed ${answer.failed}`;
  if (answer.impossible) return `impossible: ${answer.impossible}`;
  const names = answer.events.map((it) => nameOf(it) + (it.flags.includes("ERROR") ? ` (error ${it.data})` : ""));
  return names.length ? names.join(", ") : "nothing";
}

function eventTable(events) {
  const rowOf = (it) => [nameOf(it), it.flags.join(" ") || "-", it.fflags, it.data, it.udata];
  const cells = (list, tag) => `<tr>${list.map((it) => `<${tag}>${escaped(it)}</${tag}>`).join("")}</tr>`;
  const rows = events.map((it) => cells(rowOf(it), "td"));
  return `<table>${cells(["kevent", "flags", "fflags", "data", "udata"], "th")}${rows.join("")}</table>`;
}

// The kqueue that a call is for: of those with its number the last one made before it.
function laneOf(record, place) {
  return data.lanes.findLastIndex((it) => it.pid === record.pid && it.fd === record.fd && it.at < place);
}

// The kevents of which a call says something, in the order of kqcheck: those registered, then others it names.
function keventsOf(lane, record, place) {
  const orderAt = (line) => {
    const states = line.states.slice(0, indexAt(line.states, place) + 1).filter((it) => it.length > 3);
    return states.length ? states[states.length - 1][3] : 0;
  };
  const found = [];
  for (const line of data.lines) {
    if (line.lane !== lane) continue;
    const verdict = rowAt(line.verdicts, place);
    if (!verdict) continue;
    const text = data.texts[verdict[1]], named = record.changes.findIndex((it) => nameOf(it) === line.name);
    if (text !== "not registered") found.push({ line, text, rank: [0, orderAt(line)] });
    else if (named >= 0) found.push({ line, text, rank: [1, named] });
  }
  return found.sort((a, b) => a.rank[0] - b.rank[0] || a.rank[1] - b.rank[1]);
}

// What a kevent went through up to a place: the last moments.
function momentsOf(line, place) {
  const marks = line.marks.slice(0, indexAt(line.marks, place) + 1);
  const moments = marks.filter((it) => it[1] !== "heard" && it[1] !== "wrong");
  return moments.slice(-MOMENTS).map(([at, , text, op]) => `at ${at} (${op}): ${data.texts[text]}`);
}

function toldOfKevents(kevents, place) {
  const out = kevents.map(({ line, text }) => `<dt>${escaped(`${line.name}: ${text}`)}</dt>`
    + momentsOf(line, place).map((it) => `<dd class="past">${escaped(it)}</dd>`).join(""));
  return `<dl>${out.join("")}</dl>`;
}

function toldOfCall(record, place, answer) {
  const lane = laneOf(record, place);
  let out = `<p>room ${record.room}; answer: ${escaped(namesOf(answer))}</p>`;
  if (answer.events && answer.events.length) out += eventTable(answer.events);
  const given = data.given[place];
  if (given !== undefined) out += `<h3>The recorded answer</h3><pre>${escaped(given)}</pre>`;
  if (place === wrongPlace) out += `<h3 class="is-wrong">Not right</h3><pre>${escaped(data.verdict.text)}</pre>`;
  const isConcerned = ({ line, text }) => ["returned", "not registered"].includes(text) || hasNews(line, place, place);
  const kevents = keventsOf(lane, record, place), others = kevents.filter((it) => !isConcerned(it));
  out += `<h3>What became of each kevent</h3>${toldOfKevents(kevents.filter(isConcerned), place)}`;
  const few = others.length <= 8 ? " open" : "";
  if (others.length) {
    out += `<details${few}><summary>Others: ${others.length}</summary>${toldOfKevents(others, place)}</details>`;
  }
  const queue = queueAt(lane, place).map((it) => data.lines[it].name);
  return `${out}<h3>The queue behind it</h3><p>${escaped(queue.join(", ") || "empty")}</p>`;
}

// What a record did, as far as lines show it.
function toldOfRecord(place) {
  const done = [];
  for (const line of data.lines) {
    const title = data.lanes[line.lane].title;
    for (const [, , text] of marksAt(line, place)) done.push([`${title}: ${line.name}`, data.texts[text]]);
    const state = rowAt(line.states, place);
    if (line.kind === "text" && state && state[0] === place) {
      done.push([`${title}: ${line.name}`, state[1] ? data.texts[state[1] - 1] : "closed"]);
    }
  }
  if (!done.length) return "<p>It changed nothing that is shown here.</p>";
  return `<dl>${done.map(([name, text]) => `<dt>${escaped(name)}</dt><dd>${escaped(text)}</dd>`).join("")}</dl>`;
}

function tell() {
  if (!data.records.length) {
    told.innerHTML = "<p>The trace has no records.</p>";
    return;
  }
  const [op, text, answer] = recordAt(here);
  let out = `<h2>at ${here} (line ${here + 1}): ${escaped(op)}</h2><pre>${escaped(text)}</pre>`;
  out += "<h3>The answer</h3>";
  if (answer && answer.impossible) {
    out += `<p class="is-wrong">impossible: ${escaped(answer.impossible)}. It changed nothing.</p>`;
    if (here === wrongPlace) out += `<pre>${escaped(data.verdict.text)}</pre>`;
  } else if (op === "kevent") out += toldOfCall(JSON.parse(text), here, answer);
  else out += `<p>carried out</p><h3>What it did</h3>${toldOfRecord(here)}`;
  told.innerHTML = out;
}
