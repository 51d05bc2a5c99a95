// The chart: lanes of bars, events and arrows, drawn on one canvas. Things narrower than a pixel are
// drawn once a pixel.

const AXIS = 20, LANE_HEAD = 28, LANE_GAP = 10, LANE_FOLDED = 10, ROW = 40, LEAST_ROW = 7, LANE_ROWS = 168;
const LEAST_COUNT = 4, FIRST_COLUMN = 14, MARK_COLUMN = 5, ARROWS_DRAWN = 300, HIT = 14;
const view = { from: 0, count: total, chosen: 0, column: 1, width: 0, height: 0 };

const x = place => (place - view.from + 0.5) * view.column;
const placeAt = position => position / view.column + view.from - 0.5;
const until = () => view.from + view.count;
const isDrawn = place => place >= view.from - 0.5 && place <= until() - 0.5;

let colours = {};
function readColours() {
  const style = getComputedStyle(document.documentElement);
  for (const name of ["text", "faint", "page", "card", "line", "queue", "edge", "run", "step", "dot", "gone", "release", "guard",
    "closed", "lost", "failed", "dropped", "race", "focus", "match", "paint", "sync", "store", "other"]) colours[name] = style.getPropertyValue(`--${name}`).trim();
}

// ---- Places

function layOut() {
  let top = AXIS;
  for (const lane of lanes) {
    lane.shown = Math.min(Math.max(1, lane.rows), ROWS_DRAWN);
    lane.row = lane.shown <= 4 ? ROW : limited(Math.floor(LANE_ROWS / lane.shown), LEAST_ROW, ROW);
    lane.bar = Math.min(20, lane.row - 2);
    lane.isLabelled = lane.row >= 34;
    lane.top = top;
    lane.height = LANE_HEAD + (lane.folded ? LANE_FOLDED : lane.shown * lane.row + 4);
    top += lane.height + LANE_GAP;
  }
  view.height = Math.max(60, top);
}

function rowTop(lane, row) {
  if (lane.folded) return lane.top + LANE_HEAD;
  return lane.top + LANE_HEAD + Math.min(row, lane.shown - 1) * lane.row + lane.row - lane.bar - 2;
}

const barTall = lane => lane.folded ? LANE_FOLDED - 4 : lane.bar;

// The middle of an event, in pixels of the chart.
function y(place) {
  const lane = lanes[streamOf(place)], bar = data.barOf[place];
  return rowTop(lane, bar < 0 ? 0 : bars[bar].row) + barTall(lane) / 2;
}

// The bars of a lane that a part of the journal touches.
function barsBetween(lane, from, to) {
  return [lowest(lane.bars, from, bar => bar.end), lowest(lane.bars, to, bar => bar.begin)];
}

// ---- Drawing

// Places to pixels and back: in the part that is drawn, and in the strip of the whole run.
const chartScale = { at: x, back: placeAt };
const stripScale = { at: place => (place + 0.5) / total * view.width, back: position => position / view.width * total - 0.5 };

// The spans, marks and arrows of the latest picture of the chart. The width bounds their number,
// however long the run is.
const drawn = { count: 0, names: [], arrows: [], waits: [] };

// Fills rising spans, each pixel once: a span that ends within the filled part is passed over.
function fillSpans({ from, to }, { at, back }, fill) {
  let left = -9, right = -9;
  const flush = () => { if (right > left) { drawn.count += 1; fill(left, right - left); } };
  for (let index = leap(to, 0, back(-8)), hidden = -1; index < to.length; index += 1) {
    if (to[index] < hidden) index = leap(to, index, hidden);
    if (index >= to.length) break;
    let start = Math.max(-8, at(from[index])), stop = Math.min(at(to[index]), view.width + 8);
    if (start > view.width + 8) break;
    if (stop - start < 3) [start, stop] = [Math.floor(start), Math.max(Math.floor(start) + 1, Math.ceil(stop))];
    if (start > right) {
      flush();
      [left, right] = [start, stop];
    }
    right = Math.max(right, stop);
    hidden = back(right);
  }
  flush();
}

// A tick for each place of a list, and one a pixel where they are dense.
function fillTicks(list, { at, back }, wide, fill) {
  for (let index = leap(list, 0, back(-wide)); index < list.length;) {
    const pixel = Math.round(at(list[index]) - wide / 2);
    if (pixel > view.width) break;
    drawn.count += 1;
    fill(pixel, wide);
    index = leap(list, index + 1, back(pixel + wide / 2 + 0.5));
  }
}

// Fills spans of the rows of a lane.
function fillRows(pen, rows, scale, top, tall) {
  rows.forEach((spans, row) => fillSpans(spans, scale, (from, wide) => pen.fillRect(from, top(row), wide, tall)));
}

function drawGround(pen, lane) {
  pen.fillStyle = colours.page;
  pen.beginPath();
  pen.roundRect(0, lane.top, view.width, lane.height, 6);
  pen.fill();
  const left = Math.max(0, x(lane.goneAt));
  if (left >= view.width) return;
  pen.fillStyle = colours.gone;
  pen.fillRect(left, lane.top, view.width - left, lane.height);
  pen.strokeStyle = colours.line;
  pen.setLineDash([4, 4]);
  pen.beginPath();
  pen.moveTo(left, lane.top);
  pen.lineTo(left, lane.top + lane.height);
  pen.stroke();
  pen.setLineDash([]);
}

function drawAxis(pen) {
  let step = 1;
  const steps = [1, 2, 5];
  for (let size = 0; step * view.column < 56; size += 1) step = steps[size % 3] * 10 ** Math.floor(size / 3);
  pen.font = "11px system-ui, sans-serif";
  pen.textBaseline = "alphabetic";
  pen.strokeStyle = colours.line;
  pen.fillStyle = colours.faint;
  pen.lineWidth = 1;
  pen.beginPath();
  const begin = Math.max(1, Math.ceil((view.from + 0.5) / step) * step);
  for (let number = begin, free = 0; number <= Math.min(total, until() + 0.5); number += step) {
    const at = Math.round(x(number - 1)) + 0.5;
    pen.moveTo(at, AXIS - 4);
    pen.lineTo(at, view.height - LANE_GAP);
    const text = shown(number), wide = pen.measureText(text).width, left = limited(at - wide / 2, 0, view.width - wide);
    if (left < free) continue; // the number before stands there
    free = left + wide + 6;
    pen.fillText(text, left, 11);
  }
  pen.stroke();
}

function drawBars(pen, lane) {
  const range = barsBetween(lane, view.from - 1, until() + 1), tall = barTall(lane);
  pen.fillStyle = colours.queue;
  fillRows(pen, lane.whole, chartScale, row => rowTop(lane, row), tall);
  pen.fillStyle = colours.run;
  fillRows(pen, lane.running, chartScale, row => rowTop(lane, row) + 1, tall - 2);
  if (lane.folded) return;
  pen.lineWidth = 1;
  const labelled = new Float64Array(ROWS_DRAWN);
  for (let index = range[0]; index < range[1]; index += 1) {
    const bar = lane.bars[index], left = x(bar.begin), right = x(bar.end);
    if (right - left < 4 || bar.row >= ROWS_DRAWN) continue;
    drawn.count += 1;
    drawEdge(pen, lane, bar, left, right);
    if (lane.isLabelled) drawLabel(pen, lane, bar, left, right, labelled);
  }
}

function drawEdge(pen, lane, bar, left, right) {
  const top = rowTop(lane, bar.row);
  for (const [from, to] of bar.pauses) {
    const start = Math.max(-8, x(from) + Math.min(5, view.column / 3)), stop = Math.min(view.width + 8, x(to) - Math.min(5, view.column / 3));
    pen.fillStyle = colours.queue;
    if (stop - start > 1) pen.fillRect(start, top + 1, stop - start, lane.bar - 2);
  }
  pen.strokeStyle = colours.edge;
  pen.beginPath();
  const start = Math.max(-8, left);
  pen.roundRect(start, top + 0.5, Math.min(view.width + 8, right) - start, lane.bar - 1, Math.min(5, (right - left) / 3));
  pen.stroke();
}

// The number of a bar over its beginning, where no other label of its row stands there.
function drawLabel(pen, lane, bar, left, right, labelled) {
  if (right - left < 12) return;
  const text = right - left > 64 ? `order ${shown(bar.index + 1)}` : shown(bar.index + 1), wide = pen.measureText(text).width;
  const at = limited(left + 3, 2, Math.max(2, Math.min(view.width, right) - wide));
  if (at < labelled[bar.row]) return;
  labelled[bar.row] = at + wide + 4;
  pen.fillStyle = colours.faint;
  pen.fillText(text, at, rowTop(lane, bar.row) - 4);
}

// The sort of a command, which is the colour of its tick: on images, for waits, on buckets and buffers.
const sortOf = name => /Image|Rect|^Upload/.test(name) ? "paint" : /Fence|^Wait/.test(name) ? "sync"
  : /Bucket|Buffer/.test(name) ? "store" : "other";

const SHAPES = {
  step: (pen, cx, cy) => pen.rect(cx - 2, cy - 6, 4, 12),
  order: (pen, cx, cy) => pen.arc(cx, cy, 5, 0, 7),
  finish: (pen, cx, cy) => pen.arc(cx, cy, 5, 0, 7),
  close: (pen, cx, cy) => pen.rect(cx - 6, cy - 6, 12, 12),
  lost: (pen, cx, cy) => { for (const side of [-1, 1]) { pen.moveTo(cx - 7 * side, cy - 7); pen.lineTo(cx + 7 * side, cy + 7); } },
  failed: (pen, cx, cy) => { pen.moveTo(cx - 7, cy - 6); pen.lineTo(cx + 7, cy - 6); pen.lineTo(cx, cy + 7); pen.closePath(); },
  dropped: (pen, cx, cy) => { pen.moveTo(cx, cy - 8); pen.lineTo(cx + 8, cy); pen.lineTo(cx, cy + 8); pen.lineTo(cx - 8, cy); pen.closePath(); },
};

function drawMark(pen, mark, cx, cy, tick = colours.step) {
  pen.beginPath();
  SHAPES[mark](pen, cx, cy);
  pen.lineWidth = mark === "lost" ? 4 : 2;
  pen.strokeStyle = { order: colours.dot, lost: colours.lost, failed: colours.card, dropped: colours.card, close: colours.card,
    finish: colours.card }[mark] ?? colours.step;
  pen.fillStyle = { order: colours.card, finish: colours.dot, close: colours.closed, failed: colours.failed,
    dropped: colours.dropped }[mark] ?? tick;
  if (mark !== "lost") pen.fill();
  if (mark !== "step") pen.stroke();
}

// Whether single events of a lane have shapes.
const hasShapes = lane => view.column >= MARK_COLUMN && !lane.folded && lane.row >= 20;

function drawEvents(pen) {
  if (view.column < MARK_COLUMN) return;
  const last = Math.min(total, Math.ceil(until()));
  for (let place = Math.max(0, Math.floor(view.from)); place < last; place += 1) {
    if (markOf.has(place) || !hasShapes(lanes[streamOf(place)])) continue;
    drawn.count += 1;
    drawMark(pen, kindOf(place), x(place), y(place), colours[sortOf(nameOf(place))]);
  }
}

// The name of each command on its bar, where it has room up to the next event of its stream.
const wideOf = new Map();
function drawNames(pen) {
  if (view.column < MARK_COLUMN) return;
  pen.font = "10px system-ui, sans-serif";
  pen.textBaseline = "alphabetic";
  Object.assign(pen, { fillStyle: colours.step, strokeStyle: colours.run, lineWidth: 3, lineJoin: "round" });
  const last = Math.min(total, Math.ceil(until()));
  for (let place = Math.max(0, Math.floor(view.from)); place < last; place += 1) {
    const lane = lanes[streamOf(place)], left = x(place) + (markOf.has(place) ? 10 : 5);
    if (kindOf(place) !== "step" || !hasShapes(lane)) continue;
    const name = nameOf(place), next = lane.events[lowest(lane.events, place + 1)] ?? total;
    if (!wideOf.has(name)) wideOf.set(name, pen.measureText(name).width);
    if (left + wideOf.get(name) + 5 > Math.min(x(next), view.width)) continue;
    drawn.count += 1;
    drawn.names.push(place);
    pen.strokeText(name, left, y(place) + 3.5); // an arrow may be under it
    pen.fillText(name, left, y(place) + 3.5);
  }
}

// Failed and dropped commands and losses, drawn for any number of events: a tick a pixel where they
// are dense.
function drawMarks(pen) {
  for (const mark of ["dropped", "failed", "lost"]) {
    for (const lane of lanes) {
      const list = lane.marks[mark], tall = mark === "lost" ? lane.height - LANE_HEAD + 4 : mark === "failed" ? 6 : 3;
      pen.fillStyle = colours[mark];
      if (!hasShapes(lane)) {
        fillTicks(list, chartScale, 2, (from, wide) => pen.fillRect(from, lane.top + LANE_HEAD - 4, wide, tall));
        continue;
      }
      for (let at = lowest(list, view.from - 1); at < list.length && list[at] <= until(); at += 1) {
        drawn.count += 1;
        drawMark(pen, mark, x(list[at]), y(list[at]));
      }
    }
  }
}

// Draws the arrows with an end in sight, or says how many there are, where they are too many.
function drawArrows(pen) {
  const left = view.from - 0.5, right = Math.floor(until() - 0.5) + 1;
  const range = numbers => [leap(numbers, 0, left), leap(numbers, 0, right)];
  const begun = range(arrowEnds), come = range(arrowLets);
  let count = begun[1] - begun[0];
  for (let at = come[0]; at < come[1]; at += 1) if (endsByLets[at] < left) count += 1;
  if (count > ARROWS_DRAWN) return count;
  drawn.arrows = [...new Set([...arrowsByEnd.slice(...begun), ...waitsBy.lets.slice(...come)])];
  for (const wait of drawn.arrows) drawArrow(pen, wait);
  drawn.count += count;
  return 0;
}

const DASHES = { release: [], guard: [7, 4], closed: [2, 4] };

function endsOf({ ended, lets }) {
  const down = y(lets) > y(ended) ? 1 : -1;
  return { down, x1: Math.max(-20, x(ended)), x2: Math.min(view.width + 20, x(lets) - 3), y1: y(ended) + 8 * down, y2: y(lets) - 10 * down };
}

// How long a wait lasted, at an end of its arrow: where that is drawn, and no other one says it.
function drawWaited(pen, wait) {
  const { down, x1, x2, y1, y2 } = endsOf(wait), text = waited(wait);
  pen.font = "11px system-ui, sans-serif";
  const wide = pen.measureText(text).width, low1 = y1 + (down > 0 ? 12 : -4), low2 = y2 + (down > 0 ? 2 : 6);
  const isFree = ([left, low]) => left >= 0 && left + wide <= view.width && drawn.waits.every(other =>
    Math.abs(other.low - low) > 13 || other.left > left + wide + 4 || other.left + other.wide + 4 < left);
  const place = [[x1 + 8, low1], [x1 - 8 - wide, low1], [x2 + 8, low2], [x2 - 8 - wide, low2]].find(isFree);
  if (!place) return;
  const [left, low] = place;
  drawn.waits.push({ wait: wait.index, text, left, low, wide });
  pen.lineWidth = 4;
  pen.lineJoin = "round";
  pen.strokeStyle = colours.page;
  pen.strokeText(text, left, low);
  pen.fillStyle = colours[wait.how];
  pen.fillText(text, left, low);
}

function drawArrow(pen, wait) {
  const { how } = wait, { down, x1, x2, y1, y2 } = endsOf(wait);
  const bend = Math.max(24, Math.abs(y2 - y1) / 2);
  for (const [colour, wide, dash] of [[colours.card, 5, []], [colours[how], 2, DASHES[how]]]) {
    pen.strokeStyle = colour;
    pen.lineWidth = wide;
    pen.setLineDash(dash);
    pen.beginPath();
    pen.moveTo(x1, y1);
    pen.bezierCurveTo(x1, y1 + bend * down, x2, y2 - bend * down, x2, y2 - 4 * down);
    pen.stroke();
  }
  pen.setLineDash([]);
  pen.fillStyle = colours[how];
  pen.beginPath();
  pen.moveTo(x2, y2 + 2 * down);
  pen.lineTo(x2 - 5, y2 - 7 * down);
  pen.lineTo(x2 + 5, y2 - 7 * down);
  pen.fill();
}

function drawMatches(pen) {
  pen.fillStyle = colours.match;
  fillTicks(found.places, chartScale, 3, (from, wide) => pen.fillRect(from, 13, wide, 7));
}

function drawChosen(pen) {
  if (!total || !isDrawn(view.chosen)) return;
  const cx = x(view.chosen), cy = y(view.chosen), lane = lanes[streamOf(view.chosen)];
  const wide = limited(view.column, 8, 28), tall = Math.max(12, barTall(lane) + 6);
  pen.strokeStyle = colours.focus;
  pen.lineWidth = 2;
  pen.beginPath();
  pen.roundRect(cx - wide / 2, cy - tall / 2, wide, tall, 3);
  pen.stroke();
  pen.fillStyle = colours.focus;
  pen.fillRect(cx - 1, AXIS - 6, 2, 8);
  pen.globalAlpha = 0.35; // the names of lanes and numbers that it crosses stay readable
  pen.fillRect(cx - 1, AXIS + 2, 2, Math.max(0, cy - tall / 2 - AXIS - 2));
  pen.globalAlpha = 1;
}

// A pen for a canvas of this size in pixels, as sharp as the screen.
function penOf(canvas, width, height) {
  const sharp = Math.min(2, window.devicePixelRatio || 1);
  if (canvas.width !== Math.round(width * sharp) || canvas.height !== Math.round(height * sharp)) {
    canvas.width = Math.round(width * sharp);
    canvas.height = Math.round(height * sharp);
    canvas.style.height = `${height}px`;
  }
  const pen = canvas.getContext("2d");
  pen.setTransform(sharp, 0, 0, sharp, 0, 0);
  return pen;
}

function drawChart() {
  const pen = penOf(element("chart"), view.width, view.height);
  Object.assign(drawn, { count: 0, names: [], arrows: [], waits: [] });
  pen.clearRect(0, 0, view.width, view.height);
  for (const lane of lanes) drawGround(pen, lane);
  drawAxis(pen);
  for (const lane of lanes) drawBars(pen, lane);
  const hidden = drawArrows(pen);
  drawEvents(pen);
  drawNames(pen);
  for (const wait of drawn.arrows) drawWaited(pen, wait);
  drawMarks(pen);
  drawRaces(pen);
  drawMatches(pen);
  drawChosen(pen);
  return hidden;
}

// ---- The strip of the whole run

// Its lanes are drawn one by one: at once for STRIP_TAKES milliseconds, and then while the page is
// idle, so that the strip of a long run holds up no frame.
const STRIP_TAKES = 8;
let strip;
function drawStrip() {
  const tall = limited(72 / Math.max(1, lanes.length), 4, 12), made = strip = document.createElement("canvas");
  made.tall = Math.max(8, lanes.length * tall);
  const pen = penOf(made, view.width, made.tall), begun = performance.now();
  let count = 0;
  const part = () => {
    if (made !== strip) return true;
    if (count < lanes.length) drawStripLane(pen, lanes[count], count * tall, tall);
    count += 1;
    return count >= lanes.length;
  };
  while (performance.now() - begun < STRIP_TAKES) if (part()) return;
  whileIdle(() => {
    const isLast = part();
    drawOverview();
    return isLast;
  });
}

function drawStripLane(pen, lane, from, tall) {
  const top = () => from + 1;
  pen.fillStyle = colours.queue;
  fillRows(pen, lane.whole, stripScale, top, tall - 2);
  pen.fillStyle = colours.run;
  fillRows(pen, lane.running, stripScale, top, tall - 2);
  for (const mark of ["dropped", "failed", "lost"]) {
    const high = mark === "lost" ? tall : tall / 3;
    pen.fillStyle = colours[mark];
    fillTicks(lane.marks[mark], stripScale, mark === "dropped" ? 1 : 2, (at, wide) => pen.fillRect(at, from + tall - high, wide, high));
  }
}

function drawOverview() {
  if (!strip) drawStrip();
  const canvas = element("overview"), pen = penOf(canvas, view.width, strip.tall);
  pen.clearRect(0, 0, view.width, strip.tall);
  pen.drawImage(strip, 0, 0, view.width, strip.tall);
  pen.strokeStyle = colours.focus;
  pen.lineWidth = 2;
  const left = view.from / total * view.width;
  pen.strokeRect(limited(left, 1, view.width - 4), 1, Math.max(3, view.count / total * view.width - 2), strip.tall - 2);
}
