"use strict";
// The data of the page. Places of the journal count from 0 here, and from 1 where they are shown.

const data = JSON.parse(document.getElementById("data").textContent);
const total = data.texts.length;
const KINDS = { o: "order", s: "step", f: "finish", l: "lost", c: "close" };

const element = id => document.getElementById(id);
const kindOf = place => KINDS[data.kinds[place]];
const nameOf = place => data.names[data.nameOf[place]];
const streamOf = place => data.streamOf[place];
const numberOf = place => data.barOf[place] + 1;
const shown = number => number.toLocaleString("en");
const counted = (number, one, more = one + "s") => number === 1 ? `1 ${one}` : `${shown(number)} ${more}`;
const limited = (value, least, most) => Math.max(least, Math.min(most, value));

// Does a long work part by part while the page is idle. A part answers whether it was the last one.
const IDLE_LEFT = 4, IDLE_AFTER = 200; // milliseconds that a part may take, and that it waits at most
function whileIdle(part) {
  requestIdleCallback(deadline => {
    do if (part()) return; while (deadline.timeRemaining() > IDLE_LEFT);
    whileIdle(part);
  }, { timeout: IDLE_AFTER });
}

function tag(parent, name, text, className) {
  const made = document.createElement(name);
  if (text !== undefined) made.textContent = text;
  if (className) made.className = className;
  parent.append(made);
  return made;
}

// The first index of rising numbers, from one on, whose number is at least this one. A near one is
// found at once.
function leap(list, at, value) {
  let step = 1;
  while (at + step <= list.length && list[at + step - 1] < value) {
    at += step;
    step *= 2;
  }
  let to = Math.min(list.length, at + step - 1);
  while (at < to) {
    const middle = (at + to) >> 1;
    if (list[middle] < value) at = middle + 1; else to = middle;
  }
  return at;
}

// The first index of a rising list whose value is at least this one.
function lowest(list, value, of = item => item) {
  let from = 0, to = list.length;
  while (from < to) {
    const middle = (from + to) >> 1;
    if (of(list[middle]) < value) from = middle + 1; else to = middle;
  }
  return from;
}

// The bars and the events of each stream, in their order. Ends of bars rise with their beginnings.
const ROWS_DRAWN = 24;
const bars = data.bars.map(([stream, begin, first, end, how, row, put, pauses], index) =>
  ({ index, stream, begin, first, end, how: data.hows[how], row, put, pauses }));
const lanes = data.streams.map(stream => ({ ...stream, bars: [], goneAt: total, folded: false }));
for (const bar of bars) lanes[bar.stream].bars.push(bar);
eventsOf(data.streamOf).forEach((events, number) => { lanes[number].events = events; });
for (let place = 0; place < total; place += 1) {
  if (data.kinds[place] === "l" || data.kinds[place] === "c") lanes[streamOf(place)].goneAt = place;
}

// The places of each stream.
function eventsOf(streams) {
  const counts = new Int32Array(lanes.length);
  for (const stream of streams) counts[stream] += 1;
  const found = lanes.map((_, number) => new Int32Array(counts[number]));
  counts.fill(0);
  for (let place = 0; place < streams.length; place += 1) {
    const stream = streams[place];
    found[stream][counts[stream]] = place;
    counts[stream] += 1;
  }
  return found;
}

// The bars of each row of a lane as spans of places, and their parts in which a flush runs. Both ends
// of the spans of a row rise. Rows that are not drawn are parts of the last one.
function spansOf(some, begin) {
  return { from: Int32Array.from(some, begin), to: Int32Array.from(some, bar => bar.end) };
}
for (const lane of lanes) {
  const rows = Array.from({ length: Math.min(Math.max(1, lane.rows), ROWS_DRAWN) }, () => []);
  for (const bar of lane.bars) rows[Math.min(bar.row, ROWS_DRAWN - 1)].push(bar);
  lane.whole = rows.map(row => spansOf(row, bar => bar.begin));
  lane.running = rows.map(row => spansOf(row.filter(bar => bar.first >= 0), bar => bar.first));
}

// ---- Waits, in the order of each of their places

const waits = data.waits.map(([stream, number, target, release, by, made, ended, how, lets, text], index) =>
  ({ index, stream, number, target, release, by, made, ended, how, lets, text }));
const arrows = waits.filter(wait => wait.lets >= 0);
const sortedBy = (list, field) => [...list].sort((one, other) => one[field] - other[field]);
const waitsBy = { made: sortedBy(waits, "made"), ended: sortedBy(waits, "ended"), lets: sortedBy(arrows, "lets") };
const arrowsByEnd = sortedBy(arrows, "ended");
const arrowEnds = Int32Array.from(arrowsByEnd, wait => wait.ended), arrowLets = Int32Array.from(waitsBy.lets, wait => wait.lets);
const endsByLets = Int32Array.from(waitsBy.lets, wait => wait.ended);
for (const lane of lanes) lane.waits = [];
for (const wait of waitsBy.made) lanes[wait.stream].waits.push(wait);
for (const lane of lanes) {
  let latest = -1;
  lane.latestEnd = Int32Array.from(lane.waits, wait => latest = Math.max(latest, wait.ended));
}

// The waits that an event made, ended or let go on, in the order in which they were made.
function waitsAt(place) {
  const found = new Set();
  for (const field of ["made", "ended", "lets"]) {
    const list = waitsBy[field];
    for (let at = lowest(list, place, wait => wait[field]); at < list.length && list[at][field] === place; at += 1) found.add(list[at]);
  }
  return [...found].sort((one, other) => one.index - other.index);
}

// The waits of a lane that are pending after an event.
function pendingAt(lane, place) {
  const found = [];
  for (let at = lowest(lane.waits, place + 1, wait => wait.made) - 1; at >= 0 && lane.latestEnd[at] > place; at -= 1) {
    if (lane.waits[at].ended > place) found.push(lane.waits[at]);
  }
  return found.reverse();
}

// ---- Marks: failed and dropped commands, and losses

const marks = data.marks;
const markOf = new Map();
for (const mark of ["failed", "dropped", "lost"]) {
  for (const place of marks[mark]) markOf.set(place, mark);
  const places = eventsOf(marks[mark].map(streamOf));
  lanes.forEach((lane, number) => { (lane.marks ??= {})[mark] = places[number].map(at => marks[mark][at]); });
}

// The next place of a rising list after this one, or its first.
function next(list, place, direction = 1) {
  if (!list.length) return -1;
  const at = direction > 0 ? lowest(list, place + 1) : lowest(list, place) - 1;
  return list[(at + list.length) % list.length];
}

// ---- The state after an event

const columns = data.streams.map(() => new Map());
for (const [stream, key, places, values] of data.changes) columns[stream].set(key, { places, values });

function valueAt(stream, key, place, none) {
  const column = columns[stream].get(key);
  const at = column ? lowest(column.places, place + 1) - 1 : -1;
  return at < 0 ? none : column.values[at];
}

function stateAt(stream, place) {
  const lane = lanes[stream];
  const latest = lowest(lane.events, place + 1) - 1;
  const open = lane.bars.slice(lowest(lane.bars, place + 1, bar => bar.end), lowest(lane.bars, place + 1, bar => bar.begin));
  const things = sort => [...columns[stream].keys()].filter(key => key.startsWith(sort))
    .map(key => [Number(key.slice(sort.length + 1)), valueAt(stream, key, place, -1)])
    .filter(([, size]) => size >= 0).sort((one, other) => one[0] - other[0]);
  return {
    get: latest < 0 ? 0 : data.gets[lane.events[latest]], put: open.length ? open[0].put : undefined,
    release: valueAt(stream, "release", place, 0), token: valueAt(stream, "token", place),
    open: open.map(bar => bar.index + 1), gone: lane.goneAt <= place,
    waits: pendingAt(lane, place),
    buckets: things("bucket"), buffers: things("buffer"),
  };
}

// ---- Search

const FIELDS = /\b(image|stream|order|number|event|command|release|texel|error)[ :=]+(\S+)/g;

// The text of each event in small letters, made some at a time while the page is idle.
const LINES_AT_ONCE = 500;
const lines = [];
function prepareLines(count) {
  const end = Math.min(total, lines.length + count);
  while (lines.length < end) lines.push(`${data.texts[lines.length]} ${data.notes[lines.length]}`.toLowerCase());
}
whileIdle(() => {
  prepareLines(LINES_AT_ONCE);
  return lines.length === total;
});

// The events that match a search: by fields such as `image 3` or `stream 2`, and by words of their
// text.
function search(asked) {
  const wanted = [];
  const rest = asked.toLowerCase().replace(FIELDS, (_, field, value) => { wanted.push([field, value]); return " "; });
  const words = rest.split(/\s+/).filter(word => word);
  const image = wanted.find(([field]) => field === "image")?.[1];
  const tests = wanted.map(([field, value]) => testOf(field, value, image));
  if (words.length === 1 && !tests.length && /^#?[0-9,]+$/.test(words[0])) {
    const number = Number(words[0].replaceAll(/[#,]/g, ""));
    if (number >= 1 && number <= total) return [number - 1];
  }
  if (!words.length && !tests.length) return [];
  if (words.length) prepareLines(total);
  const found = [];
  for (let place = 0; place < total; place += 1) {
    if (tests.every(test => test(place)) && words.every(word => lines[place].includes(word))) found.push(place);
  }
  return found;
}

// The events that a release names, or that made, ended or let go on a wait for it.
function releasing(digits) {
  const found = new Set(data.released[digits] ?? []);
  for (const wait of waits) if (wait.release === digits) [wait.made, wait.ended, wait.lets].forEach(place => found.add(place));
  return place => found.has(place);
}

// The events that wrote a texel by its place, as `2,3`, or that name its value.
function texelTest(value, image) {
  const at = /^([0-9]+),([0-9]+)$/.exec(value);
  if (!at) {
    const word = `texel ${value.replace(/^(0x|#)/, "")}`;
    prepareLines(total);
    return place => lines[place].includes(word);
  }
  const [x, y] = [Number(at[1]), Number(at[2])], numbers = image === undefined ? imageNumbers : [Number(image)];
  const found = new Set(numbers.flatMap(number => writersOf(number, x, y).map(write => write.place)));
  return place => found.has(place);
}

// The events that failed or lost their stream with an error, by its number or by its name.
function errorTest(value) {
  prepareLines(total);
  return place => ["failed", "lost"].includes(markOf.get(place))
    && (lines[place].includes(`failed, ${value}`) || lines[place].includes(`lost by ${value}`)
      || kindOf(place) === "lost" && data.texts[place].split(" ")[2] === value);
}

function testOf(field, value, image) {
  const digits = value.replaceAll(",", ""), number = Number(digits); // numbers are shown with commas
  if (field === "image") {
    const named = new Set(data.named[digits] ?? []);
    return place => named.has(place);
  }
  if (field === "stream") return place => streamOf(place) === number - 1;
  if (field === "release") return releasing(digits);
  if (field === "texel") return texelTest(value, image);
  if (field === "error") return errorTest(value);
  if (field === "event") return place => place === number - 1;
  if (field === "command") {
    const which = new Set(data.names.map((name, at) => [name, at]).filter(([name]) => name.toLowerCase().startsWith(value))
      .map(([, at]) => at));
    return place => which.has(data.nameOf[place]);
  }
  return place => numberOf(place) === number;
}
