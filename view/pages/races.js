// Races: two steps that conflict, while nothing orders them. Both are marked; a line links those of the
// chosen event.

const RACES_TOLD = 20;
const races = data.races.map(([first, second, text]) => ({ first, second, text }));
const racesAt = new Map();
for (const race of races) {
  for (const place of [race.first, race.second]) {
    if (!racesAt.has(place)) racesAt.set(place, []);
    racesAt.get(place).push(race);
  }
}
const raced = Int32Array.from(racesAt.keys()).sort();
for (const lane of lanes) lane.raced = [];
for (const place of raced) lanes[streamOf(place)].raced.push(place);

element("next-race").hidden = !races.length;
element("count-race").textContent = shown(races.length);
element("next-race").addEventListener("click", () => choose(next(raced, view.chosen)));

function drawRaces(pen) {
  for (const lane of lanes) {
    pen.fillStyle = pen.strokeStyle = colours.race;
    pen.lineWidth = 2;
    if (!hasShapes(lane)) {
      fillTicks(lane.raced, chartScale, 2, (from, wide) => pen.fillRect(from, lane.top + LANE_HEAD - 4, wide, 5));
      continue;
    }
    const list = lane.raced;
    for (let at = lowest(list, view.from - 1); at < list.length && list[at] <= until(); at += 1) {
      drawn.count += 1;
      pen.strokeRect(x(list[at]) - 5, y(list[at]) - 9, 10, 18);
    }
  }
  pen.setLineDash([2, 3]);
  for (const race of (racesAt.get(view.chosen) ?? []).slice(0, RACES_TOLD)) {
    pen.beginPath();
    pen.moveTo(x(race.first), y(race.first));
    pen.lineTo(x(race.second), y(race.second));
    pen.stroke();
  }
  pen.setLineDash([]);
}

function tellRaces(parent, place) {
  const told = racesAt.get(place) ?? [];
  for (const race of told.slice(0, RACES_TOLD)) {
    const box = tag(parent, "p");
    tag(box, "span", "race", "badge race");
    tag(box, "span", `${race.text}. See `);
    link(box, race.first === place ? race.second : race.first);
  }
  if (told.length > RACES_TOLD) tag(parent, "p", `${shown(told.length - RACES_TOLD)} more races are not told here.`);
}
