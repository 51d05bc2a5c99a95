"""The page of a timeline in a real Chromium: what it draws, shows and finds.

The check uses mouse, fingers and keys, at three widths and in the dark.
"""

import json
import re
import subprocess
import tempfile
from pathlib import Path

from tools.checks import browser, large_page, outputs, replays
from tools.checks.looker import WIDTHS, Looker, complaints, write_page
from tools.checks.tally import Tally

EXAMPLES = ("compositor", "crossed_waits", "lost_stream")
TAB = 9


def check(top: Path, program: Path, tally: Tally) -> None:
    """Reports each thing that the page does not do."""
    if browser.program() is None:
        tally.skip("the page in a browser", "Chromium is missing (apt install chromium)")
        return
    with tempfile.TemporaryDirectory() as folder:
        try:
            with browser.Browser() as page:
                for name in EXAMPLES:
                    text = (top / f"examples/{name}.stdout").read_text()
                    check_example(Looker(page, name, tally), text,
                                  write_page(text, Path(folder) / f"{name}.html"))
                check_hand(Looker(page, "failed commands", tally), program, Path(folder))
                check_compositor(Looker(page, "compositor", tally), top,
                                 Path(folder) / "compositor.html")
                large_page.check_run(Looker(page, "a large run", tally), program,
                                     Path(folder) / "large.html")
                check_empty(Looker(page, "an empty output", tally), Path(folder) / "empty.html")
                check_comparison(Looker(page, "two outputs", tally), top, Path(folder) / "two.html")
        except browser.BrowserFault as fault:
            tally.tell("the page in a browser", str(fault))


def journal_of(text: str) -> list[str]:
    return [line for line in text.split("\n") if line.startswith(outputs.EVENTS)]


# --- Each example, at each width ---


def check_example(look: Looker, text: str, path: Path) -> None:
    journal, page = journal_of(text), look.page
    for width in WIDTHS:
        look.where = f" at {width}"
        page.size(width)
        page.open(path)
        look.tell("rows of the table", look.value("document.querySelectorAll('#table tr').length"),
                  len(journal))
        look.tell("bars that are drawn", bars_drawn(look),
                  sum(line.startswith("order ") for line in journal))
        look.click(3)
        look.tell("the line after a click", look.line(), journal[3])
        look.value("element('chart').focus()")
        page.key("ArrowRight")
        look.tell("the line after a key", look.line(), journal[4])
        page.key("End")
        look.tell("the line after End", look.line(), journal[-1])
        look.tell("the focus", look.value("document.activeElement.id"), "chart")
        look.value("document.querySelector('#table tr:nth-child(2) a').click()")
        look.tell("the line after a link", look.line(), journal[1])
        look.tell("the address", look.value("location.hash"), "#event=2")
        look.tell("what is wider than the window",
                  look.value("(page => page.scrollWidth - page.clientWidth)"
                             "(document.documentElement)"), 0)
        look.tell("the console", complaints(page), [])
    look.where = ", by its address"
    page.open(path, "#event=5")
    look.tell("the line", look.line(), journal[4])


def bars_drawn(look: Looker) -> int:
    """How many bars have their colour at their begin, just past the order and near the edge."""
    return int(look.value(
        """(() => { const pen = element('chart').getContext('2d');
        const sharp = Math.min(2, devicePixelRatio);
        const probe = document.createElement('canvas').getContext('2d');
        const style = getComputedStyle(document.documentElement);
        const known = ['--queue', '--run'].map(name => {
          probe.fillStyle = style.getPropertyValue(name).trim(); probe.fillRect(0, 0, 1, 1);
          return probe.getImageData(0, 0, 1, 1).data.join(); });
        return bars.filter(bar => [0.4, 0.5, 0.6].some(part => known.includes(pen.getImageData(
          x(bar.begin + part) * sharp, (y(bar.begin) + 7) * sharp, 1, 1).data.join()))).length;
        })()"""))


# --- One example in all ways ---


def check_compositor(look: Looker, top: Path, path: Path) -> None:
    text = (top / "examples/compositor.stdout").read_text()
    journal, page = journal_of(text), look.page
    look.where = ""
    page.size(1280)
    page.open(path)
    check_search(look, journal)
    check_moving(look)
    check_fold(look)
    check_names(look)
    check_pictures(look, top, text)
    check_state(look)
    check_dark(look, path)


def check_search(look: Looker, journal: list[str]) -> None:
    """The matches of a search, by a plain reading of the lines, and the way between them."""
    page = look.page
    for asked, wanted in (("ClearRect",
                           [at for at, line in enumerate(journal) if ":20800007" in line]),
                          ("command CopyRect",
                           [at for at, line in enumerate(journal) if ":20a00009" in line]),
                          ("stream 2",
                           [at for at, line in enumerate(journal) if line.split(" ")[1] == "2"]),
                          ("image 3", [13, 14, 15, 16]), ("order 2", [1, 8, 9, 10, 11, 12]),
                          ("stream 1 texel 4a1513ff", [5]), ("event 9", [8]), ("7", [6]),
                          ("0:20400004 1:00000003", [13]),
                          ("nothing like it", [])):
        look.tell(f"a search for {asked}", look.value(f"search({json.dumps(asked)})"), wanted)
    page.open(Path(look.value("decodeURI(location.pathname)")))
    page.key("/")
    look.tell("the focus after a slash", look.value("document.activeElement.id"), "search")
    page.write("CopyRect")
    page.key("Enter", 13)
    look.tell("the first match", (look.line(), look.text("#matches")),
              (journal[15], "match 1 of 2"))
    page.key("Enter", 13)
    look.tell("the next match", (look.line(), look.text("#matches")), (journal[16], "match 2 of 2"))
    page.click("#previous")
    look.tell("the previous match", look.line(), journal[15])
    look.value("element('search').blur()")
    page.key("n")
    look.tell("the next match by a key", look.line(), journal[16])


def check_moving(look: Looker) -> None:
    """The wheel and two fingers zoom about the pointer; a drag and the keys move."""
    page = look.page
    look.value("element('chart').scrollIntoView({block: 'center'}), fit()")
    page.settle()
    left, top = look.value("(box => [box.x, box.y])(element('chart').getBoundingClientRect())")
    before = look.value("[placeAt(200), view.count]")
    page.point(left + 200, top + 60, "mouseWheel", deltaX=0, deltaY=-200)
    page.settle()
    after = look.value("[placeAt(200), view.count]")
    look.tell("the wheel zooms", after[1] < before[1] * 0.9, True)
    look.tell("the wheel keeps what is under it", abs(after[0] - before[0]) < 0.01, True)
    look.value("show(5, 8)")
    page.settle()
    left, top = look.value("(box => [box.x, box.y])(element('chart').getBoundingClientRect())")
    before = look.value("[view.from, view.column]")
    page.drag(left + 300, top + 60, -60)
    page.settle()
    moved = look.value("view.from") - before[0]
    look.tell("a drag moves", abs(moved - 60 / before[1]) < 0.05, True)
    look.tell("a drag chooses nothing", look.value("view.count"), 8)
    look.value("fit()")
    page.settle()
    page.pinch(left + 300, top + 60, 40, 40)
    page.settle()
    look.tell("two fingers zoom", look.value("view.count < 0.7 * total"), True)
    for key, wanted in (("f", "view.count === total"), ("w", "view.count < total"),
                        ("s", "view.count === total"),
                        ("w", "view.count < total"), ("d", "view.from > 0"),
                        ("f", "view.from === 0")):
        page.key(key)
        page.settle()
        look.tell(f"the key {key}, {wanted}", look.value(wanted), True)


def check_fold(look: Looker) -> None:
    page, height = look.page, look.value("view.height")
    page.click("#lanes button")
    page.settle()
    look.tell("a folded lane",
              look.value("[view.height < %d, document.querySelector('#lanes button').ariaExpanded, "
                         "document.activeElement.ariaExpanded]" % height), [True, "false", "false"])
    page.click("#fold")
    page.click("#fold")
    page.settle()
    look.tell("all lanes unfolded", look.value("view.height"), height)


def check_names(look: Looker) -> None:
    """Each control has a name, and Tab reaches all of them."""
    page = look.page
    controls = (
        "[...document.querySelectorAll('button, input, a, canvas[tabindex]')]"
        ".filter(one => !one.disabled && one.offsetParent)"
    )
    nameless = look.value(
        f"{controls}.filter(one => !(one.ariaLabel || one.textContent.trim()))"
        ".map(one => one.outerHTML)")
    look.tell("controls without a name", nameless, [])
    look.value("document.activeElement.blur(), scrollTo(0, 0)")
    count = look.value(f"{controls}.length")
    seen: set[str | None] = set()
    look.value(f"{controls}.forEach((one, at) => one.dataset.at = at)")
    for _ in range(count + 2):
        page.key("Tab", TAB)
        seen.add(look.value("document.activeElement.dataset.at"))
    look.tell("controls that Tab comes to", len(seen - {None}), count)


def check_pictures(look: Looker, top: Path, text: str) -> None:
    """The images after each event, by a second run of the script; outlines; writers of a texel."""
    page, wanted = look.page, outputs.images_of(text)
    for place, images in enumerate(
        replays.images_of((top / "examples/compositor.script").read_bytes())
    ):
        got = look.value(
            f"imageNumbers.map(image => [image, imageAt(image, {place})]).filter(([, one]) => one)"
            ".map(([image, one]) => [image, one.width, one.height, [...one.bytes].map(byte => "
            "byte.toString(16).padStart(2, '0')).join('')])")
        look.tell(f"the images after event {place + 1}",
                  {image: (width, height, texels) for image, width, height, texels in got},
                  images)
    shown = {image: (width, height, texels.hex())
             for image, (width, height, texels) in wanted.items()}
    look.tell("the last images are those that are printed", images, shown)
    look.value("choose(15)")
    page.settle()
    outline = (
        "[...document.querySelector('[data-image=\"3\"]').getContext('2d')"
        ".getImageData({}, {}, 1, 1).data].join()"
    )
    scale = look.value("scaleOf({width: 18, height: 11})")
    focus = look.value("(pen => (pen.fillStyle = colours.focus, pen.fillRect(0, 0, 1, 1), "
                       "[...pen.getImageData(0, 0, 1, 1).data].join()))"
                       "(document.createElement('canvas').getContext('2d'))")
    look.tell("the outline of a copy to 1, 1", look.value(outline.format(scale + 30, scale)), focus)
    look.tell(
        "no outline beside it", look.value(outline.format(scale + 30, 8 * scale)) == focus, False
    )
    page.click("[data-image='3']")
    look.tell("who wrote a texel in the middle", re.findall(r"event \d+", look.text("#texel ul")),
              ["event 14", "event 15"])
    look.value("pick(imageAt(3, 15), 2, 2)")
    look.tell("who wrote texel 2, 2", re.findall(r"event \d+", look.text("#texel ul")),
              ["event 14", "event 15", "event 16", "event 5"])
    look.value("document.querySelector('[data-image=\"3\"]').focus()")
    page.key("ArrowRight")
    look.tell("the texel after a key", look.text("#texel h3"), "Texel 3, 2 of image 3: d9534fff")


def check_state(look: Looker) -> None:
    """How things stand after some events, by hand."""
    for place, number, wanted in (
            (2, 2,
             {"get": "0", "PUT": "29", "release count": "0", "token": "none", "open numbers": "3",
              "pending waits":
              "number 3 for stream 1 to come to release 1, number 3 for stream 2 to come to "
              "release 1"}),
            (6, 0,
             {"get": "21", "PUT": "21", "release count": "1", "token": "none", "open numbers": "1",
              "pending waits": "none"}),
            (6, 2,
             {"get": "0", "PUT": "29", "release count": "0", "token": "none", "open numbers": "3",
              "pending waits": "number 3 for stream 2 to come to release 1"}),
            (17, 2,
             {"get": "29", "release count": "0", "token": "none", "open numbers": "none",
              "pending waits": "none"})):
        look.value(f"choose({place})")
        look.page.settle()
        got = look.value(
            "(list => Object.fromEntries([...list.querySelectorAll('dt')].map(term => "
            "[term.textContent, term.nextSibling.textContent])))"
            f"(document.querySelectorAll('#streams dl')[{number}])")
        look.tell(f"stream {number + 1} after event {place + 1}", got, wanted)


def check_dark(look: Looker, path: Path) -> None:
    """Dark colours come by themselves, also on the canvas, and also while the page is open."""
    look.page.open(path)
    light = look.colour(2, 30)
    look.page.scheme("dark")
    look.page.settle()
    dark = look.colour(2, 30)
    look.page.scheme("light")
    for name, colour, is_dark in (("light", light, False), ("dark", dark, True)):
        look.tell(f"the ground of a lane is {name}", max(map(int, colour.split(","))) < 64, is_dark)


# --- Failed commands, by hand ---

HAND = """gpu-script 1
stream 1 normal 64
put 0 20400004 1 2 2 20400004 1 2 2 20800007 3 0 0 1 1 ff 20800007 1 1 1 2 1 ff \
20200004 9 1 0 7fe00001
flush 27
"""
HAND_MARKS = {"failed": [2, 3, 4], "dropped": [5], "lost": [6]}


def check_hand(look: Looker, program: Path, folder: Path) -> None:
    """A script with three failed commands, a dropped wait and a loss."""
    ran = subprocess.run([program, "run"], input=HAND.encode(), capture_output=True, check=False)
    path, page = write_page(ran.stdout.decode(), folder / "hand.html"), look.page
    page.size(1280)
    page.open(path)
    look.tell("the marks", look.value("marks"), HAND_MARKS)
    for mark, places in HAND_MARKS.items():
        look.tell(f"the count of {mark}", look.text(f"#count-{mark}"), str(len(places)))
        page.click(f"#next-{mark}")
        look.tell(f"the badge of {mark}", look.text("#detail .badge"), mark)
        look.tell(f"the rows that are {mark}",
                  look.value(f"document.querySelectorAll('#table .{mark}').length"), len(places))
        px, py = look.value(f"choose({places[0]}), drawNow(), [x({places[0]}), y({places[0]})]")
        colour = look.value(
            f"(pen => (pen.fillStyle = colours.{mark}, pen.fillRect(0, 0, 1, 1), "
            "[...pen.getImageData(0, 0, 1, 1).data.subarray(0, 3)].join()))"
            "(document.createElement('canvas').getContext('2d'))")
        look.tell(f"the mark of {mark} on the chart", look.colour(px, py), colour)
    look.value("choose(2)")
    look.tell("why it failed",
              "failed, 0502: image 1 is there already" in look.text("#detail .what"), True)
    look.value("element('chart').focus(), choose(0)")
    page.key("l")
    look.tell("the loss by a key", look.value("view.chosen"), 6)
    page.open(write_page(ran.stdout.decode(), folder / "left_out.html", 0))
    look.tell("what is left out is told", "left out" in look.text("#images-note"), True)


def check_empty(look: Looker, path: Path) -> None:
    """A run without streams has a page too."""
    look.page.open(write_page("", path))
    look.tell("what it says", (look.text("#drawn"), look.page.errors), ("There is no event.", []))


# --- Two outputs beside each other ---

BEFORE = ("[...document.querySelector('.wide tbody tr, .wide tr:nth-child(2)').children]"
          ".map(one => getComputedStyle(one, '::before').content)")
LOST, FENCED = "examples/lost_stream.stdout", "examples/two_streams_and_a_fence.stdout"


def check_comparison(look: Looker, top: Path, path: Path) -> None:
    """No text of the page of `compare` lies over another one, and only its tables are wide."""
    both = (top / LOST, top / FENCED)
    subprocess.run([top / "zorvleid", "compare", "--page", path, *both], capture_output=True,
                   check=False)
    for width in WIDTHS:
        look.where = f" at {width}"
        look.page.size(width)
        look.page.open(path)
        look.tell("cells that are there", look.value("document.querySelectorAll('td').length > 40"),
                  True)
        look.tell("cells whose text goes past them", look.value(
            "[...document.querySelectorAll('td')].filter(one => one.scrollWidth > one.clientWidth)"
            ".map(one => one.textContent)"), [])
        look.tell("what is wider than its place", look.value(
            "[...document.querySelectorAll('html, .wide')]"
            ".filter(one => one.scrollWidth > one.clientWidth).map(one => one.className)"), [])
        look.tell("what stands before a cell", look.value(BEFORE),
                  ['"A "', "none", '"B "', "none"] if width < 600 else ["none"] * 4)
        look.tell("the console", complaints(look.page), [])
