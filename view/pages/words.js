// Words: the part that is drawn, the chosen event, the state after it, and the table of events.

const TABLE_ROWS = 50, WAITS_TOLD = 20, MARK_WORDS = { failed: "failed", dropped: "dropped", lost: "lost" };

function link(parent, place, text = `event ${shown(place + 1)}`) {
  const made = tag(parent, "a", text);
  made.href = `#event=${place + 1}`;
  return made;
}

function badge(parent, place) {
  const mark = markOf.get(place);
  if (mark) tag(parent, "span", MARK_WORDS[mark], `badge ${mark}`);
}

function tellDrawn(hidden) {
  const first = Math.max(1, Math.ceil(view.from + 0.5)), last = Math.min(total, Math.floor(until() + 0.5));
  let text = `Events ${shown(first)} to ${shown(last)} of ${shown(total)} are drawn.`;
  if (!total) text = "There is no event.";
  else if (view.column < MARK_COLUMN) text += " Single events are folded into their bars.";
  if (hidden) text += ` ${shown(hidden)} arrows are folded away.`;
  const over = lanes.filter(lane => lane.rows > ROWS_DRAWN).length;
  if (over) text += ` ${counted(over, "lane has", "lanes have")} more than ${ROWS_DRAWN} rows, and the last row has the rest.`;
  element("drawn").textContent = text;
}

function tellEvent() {
  const detail = element("detail"), place = view.chosen;
  detail.replaceChildren();
  if (!total) return;
  const number = numberOf(place) ? `, order number ${shown(numberOf(place))}` : "";
  const where = tag(detail, "p", undefined, "where");
  link(where, place, `Event ${shown(place + 1)}`);
  tag(where, "span", ` of ${shown(total)}: ${data.streams[streamOf(place)].name}${number}, line ${shown(data.line + place)} of the output `);
  badge(where, place);
  tag(detail, "code", data.texts[place]);
  tag(detail, "p", data.notes[place], "what");
  const told = waitsAt(place);
  for (const wait of told.slice(0, WAITS_TOLD)) tellWait(detail, wait, place);
  if (told.length > WAITS_TOLD) tag(detail, "p", `${shown(told.length - WAITS_TOLD)} more waits are not told here.`);
  tellRaces(detail, place);
}

const waited = wait => `waited ${counted(wait.ended - wait.made, "event")}`;

function tellWait(parent, wait, place) {
  if (wait.how === "dropped") return;
  const box = tag(parent, "p"), who = `number ${shown(wait.number)} of stream ${wait.stream + 1}`;
  const on = `stream ${wait.target} to come to release ${wait.release}`;
  if (wait.how === "pending") {
    tag(box, "span", `Its wait for ${on} is pending where the output ends.`);
  } else if (wait.made === place) {
    tag(box, "span", wait.how === "gone" ? "Its wait is gone at " : `Its wait for ${on} ends (${wait.how}) at `);
    link(box, wait.ended);
    tag(box, "span", `: it ${waited(wait)}.`);
  } else if (wait.ended === place) {
    tag(box, "span", wait.how === "gone" ? `The wait of ${who} is gone with its stream.`
      : `It ended the wait of ${who} for ${on} (${wait.how}), which ${waited(wait)}${wait.lets < 0 ? "." : " and lets "}`);
    if (wait.lets >= 0) { link(box, wait.lets); tag(box, "span", " come."); }
  } else {
    tag(box, "span", `It could come once `);
    link(box, wait.ended);
    tag(box, "span", ` had ended its wait for ${on} (${wait.how}): it ${waited(wait)}.`);
  }
}

// ---- The state

function fact(list, name, value) {
  tag(list, "dt", name);
  tag(list, "dd", value);
}

function few(list, text) {
  const told = list.slice(0, 8).map(text);
  return told.join(", ") + (list.length > 8 ? `, and ${shown(list.length - 8)} more` : "");
}

function tellState() {
  const box = element("streams"), place = view.chosen;
  box.replaceChildren();
  element("state-head").textContent = total ? `How things stand after event ${shown(place + 1)}` : "How things stand";
  if (!total) return;
  data.streams.forEach((stream, number) => {
    const state = stateAt(number, place), card = tag(box, "section", undefined, number === streamOf(place) ? "chosen" : "");
    tag(card, "h3", state.gone ? `${stream.name}: ${stream.end}` : stream.name);
    const list = tag(card, "dl");
    fact(list, "get", shown(state.get));
    if (state.open.length) fact(list, "PUT", state.put < 0 ? "not in the output" : shown(state.put));
    fact(list, "release count", String(state.release));
    fact(list, "token", state.token === undefined ? "none" : String(state.token));
    fact(list, "open numbers", few(state.open, shown) || "none");
    fact(list, "pending waits", few(state.waits, wait =>
      `number ${shown(wait.number)} for stream ${wait.target} to come to release ${wait.release}`) || "none");
    if (state.buckets.length) fact(list, "buckets", few(state.buckets, ([key, size]) => `${key}: ${counted(size, "byte")}`));
    if (state.buffers.length) fact(list, "buffers", few(state.buffers, ([key, size]) => `${key}: ${counted(size, "byte")}`));
  });
}

// ---- The table

// The first row of the table. The rows stay while the chosen event is one of them.
let firstRow = -1;
function fillTable() {
  const body = element("table"), rows = Math.min(total, TABLE_ROWS);
  if (firstRow < 0 || view.chosen < firstRow || view.chosen >= firstRow + rows) {
    firstRow = limited(view.chosen - Math.floor(rows / 2), 0, total - rows);
    fillRowsOfTable(body, rows);
  }
  body.querySelector(".chosen")?.classList.remove("chosen");
  body.children[view.chosen - firstRow]?.classList.add("chosen");
}

function fillRowsOfTable(body, rows) {
  body.replaceChildren();
  for (let place = firstRow; place < firstRow + rows; place += 1) {
    const row = tag(body, "tr");
    link(tag(row, "td"), place, shown(place + 1));
    tag(row, "td", String(streamOf(place) + 1));
    tag(row, "td", numberOf(place) ? shown(numberOf(place)) : "");
    const cell = tag(row, "td");
    badge(cell, place);
    tag(cell, "code", data.texts[place]);
    tag(cell, "small", data.notes[place]);
  }
  const rest = total - rows;
  element("rows").textContent = rows === 0 ? "There is no event."
    : `Rows ${shown(firstRow + 1)} to ${shown(firstRow + rows)} of ${shown(total)}`
      + (rest ? "; the table goes with the chosen event." : ".");
}

// ---- The names of the lanes, over the chart, each a button that folds its lane

function tellLanes() {
  const box = element("lanes");
  box.replaceChildren();
  lanes.forEach((lane, number) => {
    const label = tag(box, "div", undefined, "lane"), button = tag(label, "button", lane.folded ? "▸ " : "▾ ");
    label.style.top = `${lane.top + 2}px`;
    button.type = "button";
    button.setAttribute("aria-expanded", String(!lane.folded));
    button.setAttribute("aria-label", `${lane.folded ? "unfold" : "fold"} the lane of ${lane.name}`);
    tag(button, "b", lane.name);
    tag(label, "span", lane.end, "end");
    button.addEventListener("click", () => fold([number], !lane.folded));
  });
}

function tellMarks() {
  for (const mark of ["failed", "dropped", "lost"]) {
    const button = element(`next-${mark}`), count = marks[mark].length;
    button.disabled = !count;
    element(`count-${mark}`).textContent = shown(count);
    button.addEventListener("click", () => choose(next(marks[mark], view.chosen)));
  }
  const box = element("remarks");
  box.hidden = !data.remarks.length;
  for (const remark of data.remarks.slice(0, 10)) tag(box, "p", remark);
  if (data.remarks.length > 10) tag(box, "p", `${shown(data.remarks.length - 10)} more.`);
}
