"""What the page of a timeline shows at once, in a real Chromium: its opening, ticks, waits, texels.

The check asks at widths of a phone, a laptop and a large screen: which event the page opens on, and
what is in sight of an event that is chosen, found or linked; the colours, names and boxes of ticks;
how long waits lasted; where a copied texel came from; searches by release, texel, error and number;
how thick an outline is, and what stands beside the chart.
"""

import json
import re
import subprocess
import tempfile
from pathlib import Path

from tools.checks import browser
from tools.checks.looker import Looker, complaints, write_page
from tools.checks.pages import journal_of
from tools.checks.tally import Tally

PHONE, TALL_PHONE, LAPTOP, LARGE = (390, 600), (390, 800), (1280, 900), (1920, 1080)
EXAMPLE, LOST = "examples/compositor.stdout", "examples/lost_stream.stdout"
LONG = "tests/cases/waits/rounds_of_guards.stdout"  # more events than fit into a window
# A bucket, a token, three images with copies from one to the next, a large image with a rectangle,
# a fence, and a rectangle that does not fit.
HAND = """gpu-script 1
stream 1 normal 128
put 0 00400003 0 8 00200002 7 20400004 1 2 2 20800007 1 0 0 2 2 aabbccdd 20400004 2 2 2 \
20a00009 1 0 0 2 1 1 1 1 20400004 3 2 2 20a00009 2 1 1 3 0 1 1 1 20400004 4 800 40 \
20800007 4 8 8 40 20 ff 20000003 1 0 20800007 1 1 1 2 2 ff
flush 63
"""
SORTS = {1: "store", 2: "other", 3: "paint", 4: "paint", 6: "paint", 11: "sync"}
# the lane of the chosen event is in the window, and the box of the event is not over it
IN_SIGHT = """(() => { const chart = element('chart').getBoundingClientRect();
  const lane = lanes[streamOf(view.chosen)], box = element('detail').getBoundingClientRect();
  const low = chart.top + lane.top + lane.height;
  return chart.top + lane.top >= 0 && low <= (box.left > chart.right ? innerHeight : box.top);
})()"""
SEARCHES: tuple[tuple[str, str, list[int]], ...] = (
    (EXAMPLE, "release 1", [2, 6, 11, 13]), (EXAMPLE, "texel d9534fff", [4]),
    (EXAMPLE, "texel 0xd9534fff", [4]), (EXAMPLE, "image 3 texel 2,2", [13, 14, 15]),
    (EXAMPLE, "texel 17,10", [13, 14]), (EXAMPLE, "#9", [8]), (EXAMPLE, "#19", []),
    (LOST, "error UnknownCommand", [4]), (LOST, "error 3", [4]), (LOST, "error 0502", []),
    ("hand", "error 0501", [12]), ("hand", "release 1", [11]),
)


def check(top: Path, program: Path, tally: Tally) -> None:
    """Reports each thing that the page does not show."""
    if browser.program() is None:
        tally.skip("the parts of the page", "Chromium is missing (apt install chromium)")
        return
    ran = subprocess.run([program, "run"], input=HAND, capture_output=True, text=True, check=False)
    texts = {name: (top / name).read_text() for name in (EXAMPLE, LOST, LONG)} | {
        "hand": ran.stdout}
    with tempfile.TemporaryDirectory() as folder:
        paths = {name: write_page(text, Path(folder) / f"{number}.html")
                 for number, (name, text) in enumerate(texts.items())}
        try:
            with browser.Browser() as page:
                look = Looker(page, "some outputs", tally)
                check_opening(look, paths, texts)
                check_sight(look, paths[EXAMPLE])
                check_ticks(look, paths)
                check_waits(look, paths[EXAMPLE])
                check_texels(look, paths)
                check_searches(look, paths)
                check_beside(look, paths[EXAMPLE])
                look.tell("the console", complaints(page), [])
        except browser.BrowserFault as fault:
            tally.tell("the parts of the page", str(fault))


def opened(look: Looker, path: Path, size: tuple[int, int], fragment: str = "") -> None:
    look.where = f" at {size[0]}"
    look.page.size(*size)
    look.page.open(path, fragment)
    look.page.settle()


def check_opening(look: Looker, paths: dict[str, Path], texts: dict[str, str]) -> None:
    """A page opens at its head on the last event, which is drawn."""
    for size in (PHONE, LAPTOP, LARGE):
        for name in (EXAMPLE, LONG):
            opened(look, paths[name], size)
            look.tell(f"the first line of {name}", look.line(), journal_of(texts[name])[-1])
            look.tell(f"the last event of {name} is drawn",
                      look.value("[isDrawn(total - 1), scrollY]"), [True, 0])
    opened(look, paths[EXAMPLE], TALL_PHONE)
    look.tell("the last lane at once on a phone", look.value(f"[{IN_SIGHT}, scrollY]"), [True, 0])


def check_sight(look: Looker, path: Path) -> None:
    """The lane of an event that is linked, found or chosen is in sight, with its box."""
    for size in (PHONE, LAPTOP):
        for event in (5, 9, 16):
            opened(look, path, size, f"#event={event}")
            look.tell(f"the lane of event {event}, which is linked", look.value(IN_SIGHT), True)
        for asked in ("d9534fff", "CopyRect"):
            look.value(f"scrollTo(0, 1e6), element('search').value = {json.dumps(asked)}, "
                       "toMatch(1)")
            look.page.settle()
            look.tell(f"the lane of {asked}, which is found", look.value(IN_SIGHT), True)
        for place in range(18):
            look.value(f"choose({place})")
            look.page.settle()
            look.tell(f"the lane of event {place + 1}", look.value(IN_SIGHT), True)


def check_ticks(look: Looker, paths: dict[str, Path]) -> None:
    """A tick has the colour of its sort; its name where there is room, and a box at the mouse."""
    opened(look, paths["hand"], LAPTOP)
    sharp = look.value("element('chart').width / view.width")
    for place, sort in SORTS.items():
        got = look.value(
            "[...element('chart').getContext('2d').getImageData("
            f"x({place}) * {sharp}, y({place}) * {sharp}, 1, 1).data].join()")
        look.tell(f"the colour of tick {place + 1}", got, look.value(
            f"(pen => (pen.fillStyle = colours.{sort}, pen.fillRect(0, 0, 1, 1), "
            "[...pen.getImageData(0, 0, 1, 1).data].join()))"
            "(document.createElement('canvas').getContext('2d'))"))
    for size, wanted in ((PHONE, []), (LARGE, [3, 4, 5, 6, 8, 9, 10, 11, 13, 14, 15, 16])):
        opened(look, paths[EXAMPLE], size)
        look.tell("the ticks with a name", look.value("drawn.names"), wanted)
    look.tell("how much of a name is drawn", look.value(
        "(data => { let count = 0; for (let at = 0; at < data.length; at += 4) "
        "if (data[at] > 200 && data[at + 1] > 200) count += 1; return count > 20; })"
        "(element('chart').getContext('2d').getImageData(x(4) + 6, y(4) - 5, 40, 10).data)"), True)
    px, py = look.point(4)
    look.page.point(px, py, "mouseMoved")
    look.page.settle()
    told = look.value("[element('tip').hidden, element('tip').textContent]")
    is_told = not told[0] and told[1].startswith("Event 5: ClearRect") and "48 texels" in told[1]
    look.tell("the box at the mouse", is_told or told, True)
    look.page.point(5, 5, "mouseMoved")
    look.page.settle()
    look.tell("no box elsewhere", look.value("element('tip').hidden"), True)


def check_waits(look: Looker, path: Path) -> None:
    """How long a wait lasted stands at its arrow, with nothing over it, and in the box."""
    for size in (PHONE, LAPTOP, LARGE):
        opened(look, path, size)
        look.tell("what stands at the arrows", look.value("drawn.waits.map(one => one.text)"),
                  ["waited 4 events", "waited 9 events"])
        look.tell("the bars under it", look.value(
            "drawn.waits.filter(one => bars.some(bar => one.left < x(bar.end) "
            "&& one.left + one.wide > x(bar.begin) && one.low > y(bar.begin) - 10 "
            "&& one.low - 9 < y(bar.begin) + 10)).length"), 0)
    for place, wanted in ((2, "waited 4 events"), (6, "waited 4 events"), (11, "waited 9 events"),
                          (13, "waited 9 events")):
        look.value(f"choose({place})")
        look.tell(f"the box of event {place + 1}", wanted in look.text("#detail"), True)


def check_texels(look: Looker, paths: dict[str, Path]) -> None:
    """The writers of a texel, and where each copy took it from; a thin outline of a large image."""
    opened(look, paths[EXAMPLE], LAPTOP)
    look.value("pick(imageAt(3, 15), 5, 4)")
    look.tell("who wrote texel 5, 4", re.findall(r"event \d+", look.text("#texel ul")),
              ["event 14", "event 15", "event 16", "event 5"])
    opened(look, paths["hand"], LAPTOP)
    look.value("pick(imageAt(3, 8), 0, 1)")
    told = re.findall(r"(?:texel \d, \d of image \d, by )?event \d+", look.text("#texel ul"))
    look.tell("the texel of a copy of a copy", told,
              ["event 8", "event 9", "texel 1, 1 of image 2, by event 7",
               "texel 0, 0 of image 1, by event 5"])
    look.value("choose(10)")
    look.page.settle()
    thick = look.value(
        "(canvas => { const pen = canvas.getContext('2d'), own = document.createElement('canvas')"
        ".getContext('2d'); own.fillStyle = colours.focus; own.fillRect(0, 0, 1, 1); const wanted "
        "= [...own.getImageData(0, 0, 1, 1).data].join(); let count = 0; for (let at = 0; at < 30; "
        "at += 1) count += [...pen.getImageData(8 + at, 20, 1, 1).data].join() === wanted; "
        "return [canvas.width, count * canvas.clientWidth / canvas.width]; })"
        "(document.querySelector('[data-image=\"4\"]'))")
    look.tell("the outline in a wide image", [thick[0], 0.4 < thick[1] < 1.4] if thick else thick,
              [2048, True])


def check_searches(look: Looker, paths: dict[str, Path]) -> None:
    before = None
    for name, asked, wanted in SEARCHES:
        if name != before:
            opened(look, paths[name], LAPTOP)
        before = name
        look.tell(f"a search of {name} for {asked}", look.value(f"search({json.dumps(asked)})"),
                  wanted)


def check_beside(look: Looker, path: Path) -> None:
    """Images and state stand beside the chart where there is room, and else below it."""
    for size, is_beside in ((PHONE, False), (LAPTOP, True), (LARGE, True)):
        opened(look, path, size)
        for part in ("images", "streams"):
            look.tell(f"{part} beside the chart", look.value(
                f"element('{part}').getBoundingClientRect().left > "
                "element('chart').getBoundingClientRect().right"), is_beside)
        look.tell("the legend", look.value(
            "(legend => legend.left < 40 && legend.top - "
            "element('timeline').getBoundingClientRect().bottom)"
            "(element('legend').getBoundingClientRect()) < 80"), is_beside)
