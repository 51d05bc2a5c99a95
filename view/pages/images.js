// The images as they were after an event, from the differences that each event wrote.

const IMAGES_SHOWN = 24, WRITERS_SHOWN = 100, COPIES_TOLD = 50, FIGURE = 200;
const WROTE = 0, MADE = 1, GONE = 2;

const writes = data.writes.map(([place, image, x, y, w, h, at, size, kind]) => ({ place, image, x, y, w, h, at, size, kind }));
const writesOf = new Map();
for (const write of writes) {
  if (!writesOf.has(write.image)) writesOf.set(write.image, []);
  writesOf.get(write.image).push(write);
}
const imageNumbers = [...writesOf.keys()].sort((one, other) => one - other);

// For each write of an image: the write that made the image, or -1; and the latest one so far that
// set all of its texels.
for (const list of writesOf.values()) {
  let made = -1, whole = -1;
  list.forEach((write, at) => {
    if (write.kind !== WROTE) made = whole = write.kind === MADE ? at : -1;
    else if (made >= 0 && write.w === list[made].w && write.h === list[made].h && write.at >= 0) whole = at;
    Object.assign(write, { made, whole });
  });
}

// The bytes of all writes. A block is read at its first use: four characters of the text are three
// bytes.
const BLOCK = 3 << 14, blocks = [];
let blockText;
function block(number) {
  if (blocks[number]) return blocks[number];
  blockText ??= element("texels").textContent;
  const text = atob(blockText.slice(BLOCK / 3 * 4 * number, BLOCK / 3 * 4 * (number + 1)));
  const bytes = blocks[number] = new Uint8Array(text.length);
  for (let at = 0; at < text.length; at += 1) bytes[at] = text.charCodeAt(at);
  return bytes;
}

function bytesOf({ at, size }) {
  const first = Math.floor(at / BLOCK), last = Math.floor((at + size - 1) / BLOCK);
  const part = (number, from, to) => block(number).subarray(from - BLOCK * number, to - BLOCK * number);
  if (first === last) return part(first, at, at + size);
  const bytes = new Uint8Array(size);
  for (let number = first; number <= last; number += 1) {
    const from = Math.max(at, BLOCK * number);
    bytes.set(part(number, from, Math.min(at + size, BLOCK * (number + 1))), from - at);
  }
  return bytes;
}

// How many writes of an image there were up to an event.
const writesUpTo = (list, place) => lowest(list, place + 1, write => write.place);

// The latest creation of an image up to an event: its place among the image's writes, or -1 where
// the image is not there.
function making(list, place) {
  const last = writesUpTo(list, place) - 1;
  return last < 0 ? -1 : list[last].made;
}

// An image after an event: its size, its texels, or null where the page does not have them, and the
// write of the event.
function imageAt(image, place) {
  const list = writesOf.get(image), made = making(list, place);
  if (made < 0) return null;
  const { w: width, h: height } = list[made];
  const last = writesUpTo(list, place) - 1;
  const bytes = texelsAfter(image, list, made, last);
  const wrote = [];
  for (let at = last; at >= made && list[at].place === place; at -= 1) wrote.push(list[at]);
  return { image, width, height, bytes, wrote };
}

// The texels of an image after one of its writes, or null where the page lacks some. It goes on from
// the texels of the last call, from a kept copy, or from a write of the whole image.
const KEEP_EACH = 256, KEPT_AT_MOST = 32 << 20;
const latest = new Map(), kept = new Map();
let keptBytes = 0;
function texelsAfter(image, list, made, last) {
  const { w: width, h: height } = list[made], whole = list[last].whole;
  let at = whole, bytes = null;
  for (let before = last - last % KEEP_EACH; before >= whole && !bytes; before -= KEEP_EACH) {
    if (kept.has(`${image} ${before}`)) [at, bytes] = [before + 1, kept.get(`${image} ${before}`).slice()];
  }
  const known = latest.get(image);
  if (known?.bytes && known.last >= Math.max(whole, at - 1) && known.last <= last) [at, bytes] = [known.last + 1, known.bytes];
  bytes ??= new Uint8Array(4 * width * height);
  for (; at <= last && bytes; at += 1) {
    if (list[at].at < 0) bytes = null; else put(bytes, width, list[at]);
    if (bytes && at % KEEP_EACH === 0 && at > whole) keep(`${image} ${at}`, bytes);
  }
  latest.set(image, { last, bytes });
  return bytes;
}

// Keeps a copy, where there is room for it.
function keep(name, bytes) {
  if (kept.has(name) || keptBytes + bytes.length > KEPT_AT_MOST) return;
  keptBytes += bytes.length;
  kept.set(name, bytes.slice());
}

function put(bytes, width, write) {
  const { x, y, w, h, size } = write;
  if (!w || !h || !size) return;
  const given = bytesOf(write);
  for (let down = 0; down < h; down += 1) {
    const to = 4 * ((y + down) * width + x);
    if (size > 4) bytes.set(given.subarray(4 * down * w, 4 * (down + 1) * w), to);
    else for (let texel = 0; texel < w; texel += 1) bytes.set(given, to + 4 * texel);
  }
}

// Keeps copies of all images on the way, some writes at a time while the page is idle.
const WRITES_AT_ONCE = 256;
function* copies() {
  for (const [image, list] of writesOf) {
    for (let at = 0; at < list.length; at += 1) {
      if (at % KEEP_EACH === 0 && list[at].made >= 0) texelsAfter(image, list, list[at].made, at);
      if (at % WRITES_AT_ONCE === WRITES_AT_ONCE - 1) yield;
    }
  }
}
const copying = copies();
whileIdle(() => keptBytes >= KEPT_AT_MOST || copying.next().done);

// The events that wrote a texel of an image.
function writersOf(image, x, y) {
  return (writesOf.get(image) ?? []).filter(write => write.kind !== GONE
    && x >= write.x && x < write.x + write.w && y >= write.y && y < write.y + write.h);
}

// Where a copy took a texel from: the image, the texel there, and the latest write of it before.
const copyOf = new Map(data.copies.map(([place, source, x, y]) => [place, { source, x, y }]));
function originOf(write, x, y) {
  const copy = write.kind === WROTE ? copyOf.get(write.place) : undefined;
  if (!copy) return undefined;
  const from = { image: copy.source, x: x - write.x + copy.x, y: y - write.y + copy.y };
  return { ...from, write: writersOf(from.image, from.x, from.y).findLast(one => one.place < write.place) };
}

// ---- Showing

function scaleOf({ width, height }) {
  return Math.max(1, Math.floor(FIGURE / Math.max(width, height)));
}

function paint(canvas, shown, texel) {
  const { width, height, bytes, wrote } = shown, scale = scaleOf(shown);
  canvas.width = width * scale;
  canvas.height = height * scale;
  const pen = canvas.getContext("2d");
  if (bytes) {
    const plain = document.createElement("canvas");
    plain.width = width;
    plain.height = height;
    plain.getContext("2d").putImageData(new ImageData(new Uint8ClampedArray(bytes.buffer), width, height), 0, 0);
    pen.imageSmoothingEnabled = false;
    pen.drawImage(plain, 0, 0, canvas.width, canvas.height);
  }
  const thick = Math.max(1, Math.round(canvas.width / (canvas.clientWidth || canvas.width))); // a pixel of the screen
  for (const { x, y, w, h } of wrote) if (w && h) outline(pen, x * scale, y * scale, w * scale, h * scale, thick);
  if (texel) outline(pen, texel.x * scale, texel.y * scale, scale, scale, thick, colours.match);
}

function outline(pen, x, y, w, h, thick, colour = colours.focus) {
  const edge = (style, inset) => {
    pen.strokeStyle = style;
    pen.lineWidth = thick;
    pen.strokeRect(x + inset, y + inset, Math.max(1, w - 2 * inset), Math.max(1, h - 2 * inset));
  };
  edge("#fff", 1.5 * thick);
  edge(colour, 0.5 * thick);
}

const picked = { image: -1, x: 0, y: 0 };

function figure(parent, shown, place) {
  const { image, width, height, bytes, wrote } = shown, box = tag(parent, "figure");
  const ground = tag(box, "div", undefined, "ground"), canvas = tag(ground, "canvas");
  const count = wrote.reduce((sum, write) => sum + write.w * write.h, 0);
  const what = wrote.length ? `${counted(count, "texel")} written by this event` : "not written by this event";
  canvas.tabIndex = 0;
  canvas.dataset.image = image;
  canvas.setAttribute("role", "application");
  canvas.setAttribute("aria-roledescription", "image");
  canvas.setAttribute("aria-label", `image ${image}, ${width} by ${height}, after event ${place + 1}; ${what}. `
    + "Arrow keys go from texel to texel, and list the events that wrote it.");
  const text = tag(box, "figcaption");
  tag(text, "b", `image ${image}`);
  tag(text, "span", ` ${width} by ${height}`);
  tag(text, "br");
  tag(text, "span", bytes ? what : "its texels are left out of this page");
  paint(canvas, shown, picked.image === image ? picked : undefined);
  canvas.addEventListener("click", event => {
    const bounds = canvas.getBoundingClientRect();
    pick(shown, Math.floor((event.clientX - bounds.x) / bounds.width * width),
      Math.floor((event.clientY - bounds.y) / bounds.height * height));
  });
  canvas.addEventListener("keydown", event => {
    const move = { ArrowRight: [1, 0], ArrowLeft: [-1, 0], ArrowDown: [0, 1], ArrowUp: [0, -1], Enter: [0, 0] }[event.key];
    if (!move) return;
    event.preventDefault();
    const from = picked.image === image ? picked : { x: -move[0], y: -move[1] };
    pick(shown, from.x + move[0], from.y + move[1]);
  });
}

function pick(shown, x, y) {
  Object.assign(picked, { image: shown.image, x: limited(x, 0, shown.width - 1), y: limited(y, 0, shown.height - 1) });
  for (const canvas of element("pictures").querySelectorAll("canvas")) {
    const image = Number(canvas.dataset.image);
    paint(canvas, imageAt(image, view.chosen), image === picked.image ? picked : undefined);
  }
  tellTexel();
}

function texelText(shown, x, y) {
  if (!shown?.bytes || x >= shown.width || y >= shown.height) return "";
  const at = 4 * (y * shown.width + x);
  return [...shown.bytes.subarray(at, at + 4)].map(channel => channel.toString(16).padStart(2, "0")).join("");
}

function tellTexel() {
  const box = element("texel");
  box.replaceChildren();
  box.hidden = picked.image < 0;
  if (box.hidden) return;
  const { image, x, y } = picked, found = writersOf(image, x, y), value = texelText(imageAt(image, view.chosen), x, y);
  tag(box, "h3", `Texel ${x}, ${y} of image ${image}${value ? `: ${value}` : ""}`);
  tag(box, "p", found.length ? `${counted(found.length, "event")} wrote it:` : "No event wrote it.");
  const list = tag(box, "ul");
  const before = lowest(found, view.chosen + 1, write => write.place);
  const first = limited(before - WRITERS_SHOWN / 2, 0, Math.max(0, found.length - WRITERS_SHOWN));
  for (const write of found.slice(first, first + WRITERS_SHOWN)) {
    const { place } = write;
    const item = tag(list, "li", undefined, place === view.chosen ? "chosen" : "");
    link(item, place);
    tag(item, "span", ` ${data.notes[place]}`);
    tellOrigins(item, write, x, y);
  }
  const rest = found.length - Math.min(found.length, WRITERS_SHOWN);
  if (rest) tag(box, "p", `${shown(rest)} more are not listed.`);
}

// Goes on through copies: from which texel each one took it, and who wrote that one.
function tellOrigins(parent, write, x, y) {
  for (let told = 0, from; told < COPIES_TOLD && (from = originOf(write, x, y))?.write; told += 1) {
    ({ x, y, write } = from);
    parent = tag(tag(parent, "ul"), "li", `texel ${x}, ${y} of image ${from.image}, by `);
    link(parent, write.place);
    tag(parent, "span", ` ${data.notes[write.place]}`);
  }
}

function tellImages() {
  const place = view.chosen, box = element("pictures");
  element("images").hidden = !writes.length;
  if (!writes.length) return;
  element("images-head").textContent = `Images after event ${shown(place + 1)}`;
  const there = imageNumbers.filter(image => making(writesOf.get(image), place) >= 0);
  const wrote = new Set(there.filter(image => writesOf.get(image)[writesUpTo(writesOf.get(image), place) - 1].place === place));
  const order = there.length > IMAGES_SHOWN ? [...wrote, ...there.filter(image => !wrote.has(image))].slice(0, IMAGES_SHOWN) : there;
  const held = box.contains(document.activeElement) ? document.activeElement.dataset.image : undefined;
  box.replaceChildren();
  for (const image of order) figure(box, imageAt(image, place), place);
  if (held !== undefined) box.querySelector(`[data-image="${held}"]`)?.focus({ preventScroll: true });
  const rest = there.length - order.length;
  element("images-hint").hidden = !there.length;
  let text = there.length ? "" : "No image is there.";
  if (rest) text += `${shown(rest)} more images are there, which this event did not write. `;
  if (data.leftOut.length) {
    text += `The texels of ${counted(data.leftOut[2], "event")}, from event ${shown(data.leftOut[0] + 1)} on, are left out: `
      + "a page keeps at most 64 MiB of them. ";
  }
  element("images-note").textContent = text;
  tellTexel();
}
