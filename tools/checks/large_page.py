"""The page of a run of more than 100,000 events in Chromium: it opens, moves and finds in time.

Times are those of tools/checks/clock.py: by the clock, but without other programs. A frame is drawn
for certain, as a texel of it is read. The best of some tries counts.
"""

import functools
import json
import subprocess
from pathlib import Path

from tools.checks import outputs
from tools.checks.looker import FRAME, TRIES, WIDTHS, Looker, complaints, write_page

# of the generated script that is joined with itself: its run has 112,032 events
SIZE = ("2000", "1")
SECONDS = 6  # the most to open a page
FRAMES = 12  # that are drawn
FIRST = 3  # frames of a page that was just opened
# The page's own frames wait here until they are asked for.
HELD = """const held = [];
requestAnimationFrame = draw => held.push(draw);
const drawHeld = () => { for (const draw of held.splice(0)) draw(performance.now()); };
"""
READ = "element('chart').getContext('2d').getImageData(0, 0, 1, 1)"


def joined_script(program: Path) -> str:
    """One script of two generated ones, each with streams and images of its own."""
    script = subprocess.run(
        [program, "generate", *SIZE], capture_output=True, check=True
    ).stdout.decode()

    def moved(line: str) -> str:
        words = line.split(" ")
        if words[0] == "stream":
            words[1] = str(int(words[1]) + 4)
        elif words[0] == "put":
            for at in (3, 19) if len(words) == 6 else (3, 7, 14, 17, 23):
                if at < len(words):
                    words[at] = f"{int(words[at], 16) + 4:x}"
        return " ".join(words)

    return script + "\n".join(map(moved, script.split("\n")[1:]))


def joined(program: Path) -> str:
    """The output of that script."""
    return subprocess.run(
        [program, "run"], input=joined_script(program).encode(), capture_output=True, check=True
    ).stdout.decode()


def check_run(look: Looker, program: Path, path: Path) -> None:
    """A run of 112,032 events opens and moves in time, and shows each event by its number."""
    text, page = joined(program), look.page
    events = text[:text.index("\nimage ")].split("\n")
    look.tell("its events", len(events), 112_032)
    write_page(text, path)
    page.size(WIDTHS[0])
    check_opening(look, path)
    check_speed(look)
    check_sight(look)
    check_table(look)
    look.tell("the last lane in the strip of the whole run", look.value(LAST_OF_STRIP), True)
    look.value("fit()")
    look.tell(
        "what is folded is told",
        f"of {len(events):,} are drawn. Single events are folded" in look.text("#drawn"),
        True,
    )
    look.value("element('chart').focus()")
    page.key("End")
    look.tell("the last event", look.line(), events[-1])
    look.tell("an event by its number with a comma", look.value("search('event 77,777')"), [77_776])
    look.value("location.hash = '#event=77777'")
    look.tell("an event by its address", look.line(), events[77_776])
    look.click(77_770)
    look.tell("an event by a click", look.line(), events[77_770])
    look.tell("a search", look.value("search('InsertFence').length"),
              sum(":20000003" in event for event in events))
    final = outputs.images_of(text)
    got = look.value(
        "imageNumbers.map(image => [image, [...imageAt(image, total - 1).bytes].map(byte => "
        "byte.toString(16).padStart(2, '0')).join('')])")
    look.tell("the last images", dict(got),
              {number: texels.hex() for number, (_, _, texels) in final.items()})
    look.tell("the console", complaints(page), [])


def check_speed(look: Looker) -> None:
    """Each frame and each search is quick, and the width bounds how much is drawn."""
    for what, begin, step in (("all of it", "fit()", "show(0, total - 40 * at)"),
                              ("a tenth of it", "show(30000, 11000)", "show(30000 + 300 * at)"),
                              ("a small part", "show(50000, 100)", "show(50000 + 9 * at)"),
                              ("by zooming", "fit()", "zoom(0.8, 500)"),
                              ("events next to each other", "show(50000, 100)",
                               "choose(50000 + at)"),
                              ("events far from each other", "fit()", "choose(total - 9000 * at)")):
        look.quick(f"a frame of a large page, {what}", functools.partial(frame, look, begin, step))
        look.tell(f"what is drawn of it at most, {what}",
                  look.value("drawn.count <= lanes.length * view.width"), True)
    for asked in ("ClearRect", "image 3", "nothing like it"):
        look.quick(f"a search of a large page for {asked}", functools.partial(search, look, asked))


def search(look: Looker, asked: str) -> float:
    """How many milliseconds a search takes."""
    return 1000 * look.page.seconds(lambda: look.value(f"search({json.dumps(asked)}).length"))


def check_opening(look: Looker, path: Path) -> None:
    """A page opens in time, and draws its first frames in time."""
    page = look.page
    script = page.before_each_page(HELD)
    opened = []
    for _ in range(TRIES):
        page.load("about:blank")
        took = page.seconds(lambda: page.load(path.resolve().as_uri()))
        opened.append((took, max(first_frame(look) for _ in range(FIRST))))
        if opened[-1][0] < SECONDS and opened[-1][1] < FRAME:
            break
    page.before_no_page(script)
    look.within("a large page opens", 1000 * SECONDS, (1000 * took for took, _ in opened))
    look.within("the first frames of a large page", FRAME, (first for _, first in opened))
    page.open(path)


def first_frame(look: Looker) -> float:
    """The milliseconds of the frame for which the page asked, or of a new one with all words."""
    look.value("if (!held.length) redraw(true)")
    return 1000 * look.page.seconds(lambda: look.value(f"drawHeld(), {READ}.width"))


SIGHT = """(box => { const chart = element('chart').getBoundingClientRect();
  const at = chart.top + y(view.chosen);
  const isBeside = box.left > chart.right;
  const end = isBeside ? innerHeight : box.top;
  return [box.top >= 0, box.bottom <= innerHeight, at >= 0, at <= end];
})(element('detail').getBoundingClientRect())"""


# Whether the strip has its last lane, or comes to it within some seconds.
LAST_OF_STRIP = """new Promise(done => {
  const look = left => {
    const pen = strip.getContext('2d');
    const is = pen.getImageData(strip.width >> 1, strip.height - 4, 1, 1).data[3] > 0;
    if (is || !left) done(is); else setTimeout(look, 100, left - 1);
  };
  look(100);
})"""


def check_table(look: Looker) -> None:
    """The rows of the table stay while the chosen event is one of them, and else go with it."""
    for place, first in ((50_000, 49_976), (50_020, 49_976), (50_030, 50_006), (49_000, 48_976)):
        look.value(f"choose({place})")
        look.page.settle()
        got = look.value("['td', '.chosen td'].map(which => "
                         "document.querySelector('#table ' + which).textContent)")
        look.tell(f"the first row and the chosen one at event {place + 1}", got,
                  [f"{first:,}", f"{place + 1:,}"])
    look.tell("the chosen rows",
              look.value("document.querySelectorAll('#table .chosen').length"), 1)


def check_sight(look: Looker) -> None:
    """The chosen event and its box are in sight, though the chart is taller than the window."""
    page, before = look.page, WIDTHS[0]
    for width in WIDTHS:
        page.size(width, 600)
        for lane in (7, 0, 4):
            look.value(
                f"element('chart').focus({{preventScroll: true}}), "
                f"choose(lanes[{lane}].events[300] - 1)")
            page.settle()
            look.value(f"choose(lanes[{lane}].events[299])")
            page.key("ArrowDown")
            page.settle()
            look.tell(f"what is in sight of an event of stream {lane + 1} at {width}",
                      look.value(SIGHT), [True] * 4)
    page.size(before)


def frame(look: Looker, begin: str, step: str) -> float:
    """The milliseconds of a frame, on average over some."""
    look.value(begin)
    look.page.settle()
    frames = f"""(async () => {{
        for (let at = 1; at <= {FRAMES}; at += 1) {{
          {step};
          await new Promise(done => requestAnimationFrame(done));
          {READ};
        }} }})()"""
    return 1000 / FRAMES * look.page.seconds(lambda: look.value(frames))
