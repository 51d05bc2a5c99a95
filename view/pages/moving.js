// Moving: the part that is drawn, the chosen event, and the search.

const DRAG = 4, HASH_AFTER = 200, SEARCH_AFTER = 150;
const found = { places: [], asked: "" };
const due = { drawing: false, words: false, sight: false, hash: 0, search: 0 };

// ---- Frames

function redraw(withWords = false) {
  due.words ||= withWords;
  if (due.drawing) return;
  due.drawing = true;
  requestAnimationFrame(() => {
    due.drawing = false;
    drawNow();
  });
}

function drawNow() {
  const hidden = drawChart();
  const whole = view.count >= total;
  if (total) drawOverview();
  element("slider").max = Math.max(1, Math.ceil(total - view.count) + 1);
  element("slider").value = Math.round(view.from) + 1;
  element("slider").disabled = whole;
  element("earlier").disabled = view.from <= 0;
  element("later").disabled = until() >= total;
  element("closer").disabled = view.count <= Math.min(LEAST_COUNT, total);
  element("wider").disabled = element("fit").disabled = whole;
  tellDrawn(hidden);
  if (!due.words) return;
  due.words = false;
  tellEvent();
  tellState();
  tellImages();
  fillTable();
  if (due.sight) bringIntoSight();
}

// ---- The part that is drawn

function show(from, count = view.count) {
  view.count = limited(count, Math.min(LEAST_COUNT, total), Math.max(1, total));
  view.from = limited(from, 0, total - view.count);
  view.column = view.width / Math.max(1, view.count);
  redraw();
}

// Zooms by a factor, and keeps the place under a position where it is.
function zoom(factor, position = isDrawn(view.chosen) ? x(view.chosen) : view.width / 2) {
  const place = placeAt(position), count = limited(view.count * factor, Math.min(LEAST_COUNT, total), Math.max(1, total));
  show(place + 0.5 - position / (view.width / count), count);
}

const pan = share => show(view.from + share * view.count);
const fit = () => show(0, total);

function choose(place, inSight = true) {
  if (!total || place < 0) return;
  view.chosen = limited(place, 0, total - 1);
  if (!isDrawn(view.chosen)) show(view.chosen - view.count / 2);
  clearTimeout(due.hash);
  due.hash = setTimeout(() => history.replaceState(null, "", `#event=${view.chosen + 1}`), HASH_AFTER);
  due.sight ||= inSight;
  redraw(true);
}

// Scrolls where the lane of the chosen event is out of sight, as in a chart that is taller than the
// window, or where the event's box, which is there by now, lies over it. Of a lane of many rows the row counts.
const WHOLE_LANE = 120;
function bringIntoSight() {
  due.sight = false;
  const chart = element("chart").getBoundingClientRect(), lane = lanes[streamOf(view.chosen)];
  const isWhole = lane.height <= WHOLE_LANE;
  const top = chart.top + (isWhole ? lane.top : y(view.chosen) - 24), low = chart.top + (isWhole ? lane.top + lane.height : y(view.chosen) + 24);
  const box = element("detail").getBoundingClientRect(), beside = box.left > chart.right;
  const bottom = beside ? innerHeight : Math.min(innerHeight, box.top);
  if (top < 16) scrollBy(0, top - 40); else if (low > bottom - 8) scrollBy(0, Math.min(top - 16, low - bottom + 24));
}

// What the mouse is over, in a box beside it.
function showTip(place) {
  const tip = element("tip");
  tip.hidden = place < 0;
  if (tip.hidden) return;
  tip.replaceChildren();
  tag(tip, "b", `Event ${shown(place + 1)}: ${nameOf(place)}`);
  tag(tip, "span", data.notes[place].replace(`${nameOf(place)}: `, ""));
  for (const wait of waitsAt(place).filter(one => one.lets >= 0).slice(0, 3)) tag(tip, "span", `number ${shown(wait.number)} ${waited(wait)}`);
  tip.style.left = `${limited(x(place) - tip.offsetWidth / 2, 0, Math.max(0, view.width - tip.offsetWidth))}px`;
  tip.style.top = `${y(place) + 20}px`;
}

function fromAddress() {
  const asked = /^#event=([0-9]+)$/.exec(location.hash);
  if (asked && Number(asked[1]) >= 1) choose(Number(asked[1]) - 1);
}

function fold(numbers, isFolded) {
  for (const number of numbers) lanes[number].folded = isFolded;
  const held = element("lanes").contains(document.activeElement);
  layOut();
  tellLanes();
  if (held) element("lanes").querySelectorAll("button")[numbers[0]]?.focus({ preventScroll: true });
  element("fold").textContent = lanes.every(lane => lane.folded) ? "Unfold all lanes" : "Fold all lanes";
  redraw();
}

// ---- The mouse, and fingers

// The event of a lane that is nearest to a point, or -1.
function eventAt(px, py) {
  const lane = lanes.find(one => py >= one.top && py < one.top + one.height);
  if (!lane || !lane.events.length) return -1;
  const centre = placeAt(px), reach = HIT / view.column;
  let best = -1, least = Infinity;
  for (let at = Math.max(0, lowest(lane.events, centre - reach) - 1); at < lane.events.length; at += 1) {
    const place = lane.events[at], far = Math.abs(x(place) - px) + (lane.folded ? 0 : Math.abs(y(place) - py) / 2);
    if (far < least) [best, least] = [place, far];
    if (place > centre + reach) break;
  }
  return best;
}

const pointers = new Map();
const drag = { begun: 0, moved: 0, apart: 0 };
const middle = () => [...pointers.values()].reduce((sum, one) => sum + one, 0) / pointers.size;
const apart = () => Math.max(20, Math.max(...pointers.values()) - Math.min(...pointers.values()));

function dragged(event) {
  const chart = element("chart"), left = chart.getBoundingClientRect().left;
  if (!pointers.has(event.pointerId)) {
    showTip(event.pointerType === "touch" ? -1 : eventAt(event.offsetX, event.offsetY));
    return;
  }
  const before = middle(), wide = apart();
  pointers.set(event.pointerId, event.clientX - left);
  drag.moved = Math.max(drag.moved, Math.abs(middle() - drag.begun), pointers.size > 1 ? DRAG + 1 : 0);
  if (drag.moved <= DRAG) return;
  if (pointers.size > 1) zoom(wide / apart(), before);
  show(view.from - (middle() - before) / view.column);
}

function released(event) {
  const was = pointers.delete(event.pointerId);
  if (was && !pointers.size && drag.moved <= DRAG && event.type === "pointerup") choose(eventAt(event.offsetX, event.offsetY));
}

function wheeled(event) {
  const sideways = event.shiftKey ? event.deltaY || event.deltaX : event.deltaX;
  const unit = event.deltaMode === 1 ? 20 : event.deltaMode === 2 ? view.width : 1;
  if (event.shiftKey || Math.abs(event.deltaX) > Math.abs(event.deltaY)) {
    show(view.from + sideways * unit / view.column);
  } else {
    if (event.deltaY > 0 && view.count >= total) return; // all is drawn: the page scrolls
    zoom(Math.exp(limited(event.deltaY * unit, -400, 400) * (event.ctrlKey ? 0.01 : 0.002)), event.offsetX);
  }
  event.preventDefault();
}

function listenToChart() {
  const chart = element("chart");
  chart.addEventListener("wheel", wheeled, { passive: false });
  chart.addEventListener("pointerdown", event => {
    showTip(-1);
    if (event.button) return;
    chart.setPointerCapture(event.pointerId);
    pointers.set(event.pointerId, event.clientX - chart.getBoundingClientRect().left);
    Object.assign(drag, { begun: middle(), moved: pointers.size > 1 ? DRAG + 1 : 0 });
  });
  chart.addEventListener("pointermove", dragged);
  chart.addEventListener("pointerup", released);
  chart.addEventListener("pointercancel", released);
  chart.addEventListener("pointerleave", () => showTip(-1));
  const overview = element("overview");
  const goTo = event => show(event.offsetX / view.width * total - view.count / 2);
  overview.addEventListener("pointerdown", event => { overview.setPointerCapture(event.pointerId); goTo(event); });
  overview.addEventListener("pointermove", event => event.buttons && goTo(event));
}

// ---- The keyboard

function along(place, direction) {
  const events = lanes[streamOf(place)].events, at = lowest(events, place) + direction;
  return events[limited(at, 0, events.length - 1)];
}

const CHOOSING = {
  ArrowRight: place => place + 1, ArrowLeft: place => place - 1, ArrowDown: place => along(place, 1),
  ArrowUp: place => along(place, -1), Home: () => 0, End: () => total - 1,
  PageDown: place => place + Math.max(1, Math.floor(view.count)), PageUp: place => place - Math.max(1, Math.floor(view.count)),
};
const MOVING = {
  w: () => zoom(1 / 1.5), s: () => zoom(1.5), a: () => pan(-0.2), d: () => pan(0.2), f: fit,
  n: () => toMatch(1), N: () => toMatch(-1), e: () => choose(next(marks.failed, view.chosen)),
  l: () => choose(next(marks.lost, view.chosen)), "/": () => element("search").focus(),
};

function pressed(event) {
  const active = document.activeElement;
  if (event.ctrlKey || event.altKey || event.metaKey || active instanceof HTMLInputElement) return;
  const choosing = active === element("chart") && Object.hasOwn(CHOOSING, event.key) && CHOOSING[event.key];
  const moving = Object.hasOwn(MOVING, event.key) && MOVING[event.key];
  if (!choosing && !moving) return;
  event.preventDefault();
  if (choosing) choose(limited(choosing(view.chosen), 0, total - 1)); else moving();
}

// ---- Search

function look() {
  clearTimeout(due.search);
  const asked = element("search").value.trim();
  if (asked === found.asked) return;
  Object.assign(found, { asked, places: search(asked) });
  const count = found.places.length;
  element("matches").textContent = !asked ? "" : count ? counted(count, "match", "matches") : "no match";
  element("next").disabled = element("previous").disabled = !count;
  redraw();
}

function toMatch(direction) {
  look();
  if (!found.places.length) return;
  const place = next(found.places, view.chosen, direction);
  choose(place);
  element("matches").textContent = `match ${shown(lowest(found.places, place) + 1)} of ${shown(found.places.length)}`;
}

function listen() {
  listenToChart();
  document.addEventListener("keydown", pressed);
  element("earlier").addEventListener("click", () => pan(-0.8));
  element("later").addEventListener("click", () => pan(0.8));
  element("closer").addEventListener("click", () => zoom(0.5));
  element("wider").addEventListener("click", () => zoom(2));
  element("fit").addEventListener("click", fit);
  element("fold").addEventListener("click", () => fold(lanes.keys(), !lanes.every(lane => lane.folded)));
  element("slider").addEventListener("input", event => show(Number(event.target.value) - 1));
  element("next").addEventListener("click", () => toMatch(1));
  element("previous").addEventListener("click", () => toMatch(-1));
  element("search").addEventListener("input", () => {
    clearTimeout(due.search);
    due.search = setTimeout(look, SEARCH_AFTER);
  });
  element("search").addEventListener("keydown", event => {
    if (event.key !== "Enter") return;
    event.preventDefault();
    toMatch(event.shiftKey ? -1 : 1);
  });
  addEventListener("hashchange", fromAddress);
  matchMedia("(prefers-color-scheme: dark)").addEventListener("change", () => { readColours(); strip = undefined; redraw(true); });
  new ResizeObserver(measure).observe(element("stage"));
}

function measure() {
  const width = Math.max(200, element("stage").clientWidth);
  if (width === view.width) return;
  view.width = width;
  strip = undefined;
  show(view.from);
}

function begin() {
  readColours();
  element("whole").hidden = !total;
  layOut();
  tellLanes();
  tellMarks();
  view.width = Math.max(200, element("stage").clientWidth);
  view.chosen = Math.max(0, total - 1);
  show(total, Math.max(8, Math.floor(view.width / FIRST_COLUMN)));
  look();
  fromAddress();
  redraw(true);
  listen();
}

begin();
