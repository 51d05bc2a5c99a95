"""What `races` finds: small scripts, a second finder, runs with workers, and other histories.

- Small scripts have the findings that docs/FORMATS.md names, word by word.
- In all cases, and in scripts made from numbers, the findings are those of tests/model_races.py.
- After `one result` runs with 1 to 8 workers, and histories by other schedules, give the same
  images and the same lines of the streams.
- For each kind of race a history in which the second step comes first gives other images.

The usual check has a few scripts, and the large one 300.
"""

import json
import subprocess
import tempfile
from collections import Counter
from collections.abc import Iterable, Iterator, Sequence
from concurrent.futures import ThreadPoolExecutor
from dataclasses import dataclass, field
from pathlib import Path
from typing import Any

from tests import model, model_history, model_races, racing
from tests.model_script import Reader
from tools.checks import answers, browser, stats
from tools.checks import workers as runs
from tools.checks.large_page import joined_script
from tools.checks.looker import Looker, complaints
from tools.checks.outputs import EVENTS
from tools.checks.tally import Tally
from view import page as pages
from view import races
from view.script import Script
from zorvleid.output import Output, read_output

SMALL, LARGE = (0, 1, 4, 8, 27, 65, 73, 95), range(300)
SMALL_RUNS, LARGE_RUNS = 3, 20
SCHEDULES = 3  # by chance, for each script
SMALL_SECONDS, LARGE_SECONDS, TRIES = 15, 2, 3  # of a processor, which others may share
# The kinds of races: what touches what, the earlier step first, and how a wait ended that would
# have ordered both.
WHOLE, WRITES, READS = "whole", "writes", "reads"
KINDS = ("whole/whole", "whole/writes", "whole/reads", "writes/whole", "writes/writes",
         "writes/reads", "reads/whole", "reads/writes", "dropped", "guard")

IMAGE, RED, BLUE = "20400004 1 4 4", "20800007 1 0 0 2 2 ff0000ff", "20800007 1 1 1 3 3 ff"
COME = "20000003 1 0"
MAKER = f"stream 1 normal 64\nput 0 {IMAGE} {COME}\nflush 7\n"
LAST = f"put 0 {IMAGE} {RED} {COME}\nflush 14\n"
ONE, SUM = races.ONE_RESULT, "ordered in this run: {} conflicts are ordered by waits"


def ordered(count: str, pair: str) -> str:
    return (f"streams 1 and 2: waits order {count} here, and a run in which a wait is dropped may "
            f"order them otherwise; the first is image 1, {pair}")


# The lines of a script after its head, and what is found.
FIXED: dict[str, tuple[str, tuple[str, ...]]] = {
    "one stream": ("stream 1 normal 64\n" + LAST, (ONE,)),
    "two images": (MAKER + f"stream 2 high 64\nput 0 20400004 2 4 4\nflush 4\n", (ONE,)),
    "a word in flight": (
        f"stream 1 normal 64\nput 0 {IMAGE}\nflush 4\nput 2 5\n",
        ("stream 1 overwrites place 2 (line 5 of the script) while flush 1 may still fetch it "
         "(event 2)", "races: 1")),
    "words of a memory": (
        "stream 1 normal 16\nmemory 0 2\nput 0 20400004 1 2 1 20c00009 1 0 0 2 1 1 0 0\nflush 13\n"
        "fill 0 0 1 2\n",
        ("stream 1 overwrites places 16 to 17 (line 6 of the script) while flush 1 may still "
         "fetch them (event 3)", "races: 1")),
    "a word with the same value": (
        f"stream 1 normal 64\nput 0 {IMAGE}\nflush 4\nput 2 4\n", (ONE,)),
    "a word after a finish": (
        f"stream 1 normal 64\nput 0 {IMAGE}\nflush 4\nfinish\nput 2 5\n", (ONE,)),
    "a word after a token": (
        f"stream 1 normal 64\nput 0 {IMAGE} 00200002 1 {RED}\nflush 13\ntoken 1\nput 8 1\n"
        "put 2 9\n",
        ("stream 1 overwrites place 8 (line 6 of the script) while flush 1 may still fetch it "
         "(event 4)", "races: 1")),
    "a word of a loss": (
        "stream 1 normal 64\nput 0 20400005 1 4 4\nflush 4\nput 0 0\n",
        ("stream 1 overwrites place 0 (line 5 of the script) while flush 1 may still fetch it "
         "(event 2)", "races: 1")),
    "a close without a finish": (
        f"stream 1 normal 64\nput 0 {IMAGE}\nfinish\nflush 4\nclose\n",
        ("stream 1 may be closed with work left (line 6 of the script): no finish stands between "
         "its last flush and its close", "races: 1")),
    "a close after a finish": (
        f"stream 1 normal 64\nput 0 {IMAGE}\nflush 4\nfinish\nclose\n", (ONE,)),
    "a race": (
        "stream 1 normal 64\n" + LAST + f"stream 2 low 64\nput 0 {BLUE}\nflush 7\n",
        ("image 1, 1 by 1 at 1, 1: ClearRect of stream 1 (event 4) and ClearRect of stream 2 "
         "(event 7): nothing orders them", "races: 1")),
    "a whole image": (
        MAKER + "stream 2 low 64\nput 0 20600002 1\nflush 2\n",
        ("image 1, the whole: CreateImage of stream 1 (event 3) and DeleteImage of stream 2 "
         "(event 6): nothing orders them", "races: 1")),
    "a rectangle without a texel": (
        MAKER + "stream 2 low 64\nput 0 20800007 1 0 0 0 2 ff\nflush 7\n",
        ("image 1, 0 by 2 at 0, 0: CreateImage of stream 1 (event 3) and ClearRect of stream 2 "
         "(event 6): nothing orders them", "races: 1")),
    "a read": (
        f"stream 1 normal 64\nput 0 {IMAGE} 20400004 2 4 4 20a00009 1 0 0 2 0 0 4 4\nflush 17\n"
        f"stream 2 low 64\nput 0 {BLUE}\nflush 7\n",
        ("image 1, 3 by 3 at 1, 1: CopyRect of stream 1 (event 5) and ClearRect of stream 2 "
         "(event 7): nothing orders them", "races: 1")),
    "reads alone": (
        f"stream 1 normal 64\nput 0 {IMAGE} 20400004 2 4 4 20a00009 1 0 0 2 0 0 4 4 {COME}\n"
        "flush 20\nstream 2 low 64\n"
        "put 0 20400004 3 4 4 20a00009 1 0 0 3 0 0 4 4\nflush 13 1 1\n",
        (ordered("1 conflict", "4 by 4 at 0, 0: CreateImage of stream 1 (event 3) and CopyRect of "
                 "stream 2 (event 9)"), SUM.format(1))),
    "images that are nowhere": (
        f"stream 1 normal 64\nput 0 {RED}\nflush 7\nstream 2 low 64\nput 0 20800007 1 2 2 1 1 ff\n"
        "flush 7\n", (ONE,)),
    "a wait that ends by a release": (
        "stream 1 normal 64\n" + LAST + f"stream 2 low 64\nput 0 {BLUE}\nflush 7 1 1\n",
        (ordered("1 conflict", "1 by 1 at 1, 1: ClearRect of stream 1 (event 4) and ClearRect of "
                 "stream 2 (event 7)"), SUM.format(1))),
    "a release that was reached": (
        "stream 1 normal 64\n" + LAST
        + f"stream 2 low 64\nflush 0\nfinish\nput 0 {BLUE}\nflush 7 1 1\n",
        (ordered("1 conflict", "1 by 1 at 1, 1: ClearRect of stream 1 (event 4) and ClearRect of "
                 "stream 2 (event 9)"), SUM.format(1))),
    "a release of 0": (
        "stream 1 normal 64\n" + LAST + f"stream 2 low 64\nput 0 {BLUE}\nflush 7 1 0\n",
        ("image 1, 1 by 1 at 1, 1: ClearRect of stream 1 (event 4) and ClearRect of stream 2 "
         "(event 7): nothing orders them", "races: 1")),
    "a wait that ends by a guard": (
        "stream 1 normal 64\n" + LAST + f"stream 2 low 64\nput 0 {BLUE}\nflush 7 1 2\n",
        ("image 1, 1 by 1 at 1, 1: ClearRect of stream 1 (event 4) and ClearRect of stream 2 "
         "(event 7): nothing orders them; order 2 had a fence on 1:2, which ended by a guard: "
         "stream 1 had no lower number left", "races: 1")),
    "a fence that is dropped": (
        f"stream 1 high 64\nput 0 {BLUE}\nflush 7 2 1\nstream 2 low 64\n" + LAST,
        ("image 1, 3 by 3 at 1, 1: ClearRect of stream 1 (event 3) and CreateImage of stream 2 "
         "(event 5): nothing orders them; order 1 had a fence on 2:1, which was dropped: stream 2 "
         "had no lower number",
         "image 1, 1 by 1 at 1, 1: ClearRect of stream 1 (event 3) and ClearRect of stream 2 "
         "(event 6): nothing orders them; order 1 had a fence on 2:1, which was dropped: stream 2 "
         "had no lower number", "races: 2")),
    "a wait by a command": (
        "stream 1 low 64\n" + LAST
        + f"stream 2 high 64\nput 0 20200004 1 2 0 {BLUE}\nflush 11\n",
        ("image 1, 1 by 1 at 1, 1: ClearRect of stream 1 (event 5) and ClearRect of stream 2 "
         "(event 8): nothing orders them; order 2 had a WaitToken on 1:2, which ended by a guard: "
         "stream 1 had no lower number left", "races: 1")),
    "steps before a wait by a command": (
        f"stream 1 low 64\n{LAST}stream 2 high 64\nput 0 {BLUE} 20200004 1 1 0 {BLUE}\nflush 18\n",
        (*("image 1, {} at {}: ClearRect of stream 2 (event 3) and {} of stream 1 (event {}): "
           "nothing orders them".format(*parts) for parts in (
               ("3 by 3", "1, 1", "CreateImage", 5), ("1 by 1", "1, 1", "ClearRect", 6))),
         ordered("1 conflict", "1 by 1 at 1, 1: ClearRect of stream 1 (event 6) and ClearRect of "
                 "stream 2 (event 9)"), "races: 2")),
    "a stream that is closed": (
        f"stream 1 low 64\nput 0 {IMAGE} {RED}\nflush 11\nfinish\nput 11 {COME}\nflush 14\nclose\n"
        f"stream 2 low 64\nput 0 {BLUE}\nflush 7 1 1\n",
        ("stream 1 may be closed with work left (line 8 of the script): no finish stands between "
         "its last flush and its close",
         "image 1, 1 by 1 at 1, 1: ClearRect of stream 1 (event 4) and ClearRect of stream 2 "
         "(event 6): nothing orders them; order 2 had a fence on 1:1, which ended by a guard: "
         "stream 1 had no lower number left", "races: 2")),
    "too many texels": (
        "stream 1 low 64\nput 0 20400004 1 1000 400\nflush 4\nstream 2 low 64\n"
        "put 0 20400004 2 1000 400\nflush 4\n",
        ("the CreateImage commands ask for 8,388,608 texels together, more than 4,194,304: which "
         "of them fails may depend on their order", "races: 1")),
}


@dataclass
class Shown:
    """How often a kind of race was named, and how often other images came of it."""

    named: Counter[str] = field(default_factory=Counter)
    other: Counter[str] = field(default_factory=Counter)


def check(top: Path, program: Path, tally: Tally) -> None:
    check_fixed(program, tally)
    check_mended(top, program, tally)
    check_cases(top, program, tally)
    check_page(top, tally)
    check_seeds(program, tally, SMALL, SMALL_RUNS)
    check_speed(top, program, tally, SMALL_SECONDS)


def check_large(top: Path, program: Path, tally: Tally) -> None:
    check(top, program, tally)
    check_seeds(program, tally, LARGE, LARGE_RUNS)
    check_speed(top, program, tally, LARGE_SECONDS)


def output_of(program: Path, script: str, *words: str) -> bytes:
    return subprocess.run([program, "run", *words], input=script.encode(), capture_output=True,
                          check=False).stdout


def found_in(script: str, output: bytes) -> races.Races:
    return races.Races(read_output(output) if output else Output(), Script(script.split("\n")))


def check_fixed(program: Path, tally: Tally) -> None:
    """The small scripts have their findings."""
    for name, (lines, wanted) in FIXED.items():
        script = f"gpu-script 1\n{lines}"
        got = tuple(races.lines(found_in(script, output_of(program, script)), False))
        tally.tell(f"races of {name}", None if got == wanted else f"it says {got}")
    lines, _ = FIXED["a race"]
    lost = b"order 1 1 14\nlost 1 memory\norder 2 2 7\nstep 2" + (
        b" 0:20800007 1:00000001 2:00000001 3:00000001 4:00000003 5:00000003 6:000000ff\n"
        b"finish 2 2\nstream 1 lost memory entries 0 release 0 token 0 words 0 errors 0 0 0\n"
        b"stream 2 done entries 7 release 0 token 0 words 7 errors 0 1 0\n")
    said = list(races.lines(found_in(f"gpu-script 1\n{lines}", lost), False))
    wanted_lines = ["stream 1 is lost as out of memory (event 2): a run with more memory goes on",
                    "races: 1"]
    tally.tell("races of a run that is out of memory",
               None if said == wanted_lines else f"it says {said}")


def check_mended(top: Path, program: Path, tally: Tally) -> None:
    """The race of the example is gone with the fence that its text names."""
    script = (top / "examples/race_for_an_image.script").read_text(encoding="ascii")
    mended = script.removesuffix("flush 7\n") + "flush 7 1 1\n"
    for name, text, wanted in (("as it is", script, "races: 2"), ("mended", mended, SUM.format(1))):
        got = str(found_in(text, output_of(program, text)))
        tally.tell(f"race_for_an_image, {name}", None if got == wanted else f"it says {got}")
    images = (read_output(output_of(program, text)).images[0].texel(2, 1)
              for text in (script, mended))
    tally.tell("the mark of race_for_an_image",
               None if tuple(images) == (0xD9534FFF, 0xFFFFFFFF) else "it is not there once mended")


# --- The page ---


def check_page(top: Path, tally: Tally) -> None:
    """The page of a script marks the steps of a race, and links them; without it there is none."""
    path = top / "examples/race_for_an_image.script"
    output = read_output(path.with_suffix(".stdout").read_bytes())
    script = Script(path.read_text(encoding="ascii").split("\n"))
    tally.tell("a page without the script",
               None if '"races":[],' in pages.text(output) else "it has races")
    if browser.program() is None:
        tally.skip("races on a page in a browser", "Chromium is missing (apt install chromium)")
        return
    with tempfile.NamedTemporaryFile(suffix=".html") as file:
        file.write(pages.text(output, script).encode())
        file.flush()
        try:
            with browser.Browser() as page:
                look_at(Looker(page, "race_for_an_image", tally), Path(file.name), output)
        except browser.BrowserFault as fault:
            tally.tell("races on a page in a browser", str(fault))


def look_at(look: Looker, path: Path, output: Output) -> None:
    look.page.open(path)
    pairs = [[2, 4], [2, 5]]
    look.tell("the races", look.value("races.map(race => [race.first, race.second])"), pairs)
    look.tell("their count", look.text("#count-race"), "2")
    look.click(4)
    look.tell("the race of an event", look.text("#detail .badge.race"), "race")
    for place in (2, 4, 5):
        edge = look.value(f"[Math.round(x({place})) - 5, y({place})]")
        red, green, _ = map(int, look.colour(*edge).split(","))
        look.tell(f"the mark of event {place + 1}", red > 170 and green < 110 < red - green, True)
    look.value("document.querySelector('#detail p:last-child a').click()")
    look.tell("the event of a link", look.line(), output.events[2].text)
    look.tell("its races", look.value("document.querySelectorAll('#detail .badge.race').length"), 2)
    look.tell("the console", complaints(look.page), [])


# --- The second finder ---


def events_of(output: bytes) -> list[str]:
    return [line for line in output.decode("latin-1").split("\n") if line.startswith(EVENTS)]


def key_of(fact: dict[str, Any]) -> str:
    return json.dumps({name: fact[name] for name in fact if name != "text"}, sort_keys=True)


def fault_of(script: str, output: bytes) -> str | None:
    """How the findings on an output differ from those of the second finder, or None."""
    told = [json.loads(line) for line in races.lines(found_in(script, output), True)]
    wanted = sorted(map(key_of, model_races.findings(script, events_of(output))))
    got = sorted(map(key_of, told))
    other = next((one for one in [*wanted, *got] if wanted.count(one) != got.count(one)), None)
    return None if other is None else f"the model and the tool differ about {other}"


def check_cases(top: Path, program: Path, tally: Tally) -> None:
    """The second finder says the same of each case of `run`, and of runs with workers."""
    for name, script, output in stats.runs(top, program):
        if b"\nput" in script and len(output) < stats.LONGEST and b" memory\n" not in output:
            tally.tell(f"races of {name}", fault_of(script.decode("latin-1"), output))


# --- Scripts that are made from numbers ---


def check_seeds(program: Path, tally: Tally, seeds: Sequence[int], count: int) -> None:
    """What is said of the scripts is true of other runs of them."""
    shown, sums = Shown(), Counter[str]()
    for seed in seeds:
        script = racing.script(seed)
        output = output_of(program, script)
        fault = fault_of(script, output)
        found = found_in(script, output)
        sums[str(found).partition(":")[0]] += 1
        others = list(other_histories(script, events_of(output), seed))
        if fault is None and str(found) == ONE:
            fault = fault_of_result(program, script, output, others, seed, count)
        elif fault is None:
            note_races(found, script, output, others, shown)
        tally.tell(f"races of the script {seed}", fault)
    for kind in KINDS:
        told = f"{shown.other[kind]} of {shown.named[kind]} races {kind} change an image"
        tally.note(told)
        tally.tell(f"a race that shows: {kind}", None if shown.other[kind] else told)
    tally.note(f"{len(seeds)} scripts: {dict(sums)}")
    tally.tell("scripts with one result", None if sums["one result"] else "there is none")


History = model_history.History


def other_histories(script: str, events: list[str], seed: int) -> Iterator[tuple[int, History]]:
    """Histories with each stream first, and some by chance, which have no first stream."""
    reader = Reader(script.encode())
    for stream in range(1, len(reader.plans) + 1):
        yield stream, racing.history(reader, racing.first_of(stream, events))
    for number in range(SCHEDULES):
        yield 0, racing.history(reader, racing.by_chance(seed * SCHEDULES + number))


def result_of(output: Iterable[str]) -> list[str]:
    """The lines between a journal and its marks."""
    return [line for line in output
            if line and not line.startswith((*EVENTS, "mark ", "dump ", "name ", "gpu-journal "))]


def fault_of_result(program: Path, script: str, output: bytes, others: list[tuple[int, History]],
                    seed: int, count: int) -> str | None:
    """Another result of a script that has one, or None."""
    wanted = result_of(output.decode("latin-1").split("\n"))
    for stream, other in others:
        if result_of(model.rest(other)) != wanted:
            return f"the history {other.events} has another result (stream {stream} first)"
    with ThreadPoolExecutor(2) as pool:
        words = ([*runs.words_of(1 + (seed + number) % 8, 0)[1:]] for number in range(count))
        for ran in pool.map(lambda some: output_of(program, script, *some), words):
            if result_of(ran.decode("latin-1").split("\n")) != wanted:
                return f"a run with workers has another result: {ran.decode('latin-1')}"
    return None


def note_races(found: races.Races, script: str, output: bytes, others: list[tuple[int, History]],
               shown: Shown) -> None:
    """Counts the races, and those whose second step changes an image where it comes first."""
    images = model_history.history_of(Reader(script.encode()), events_of(output)).images
    changed = {stream for stream, other in others if other.images != images}
    for finding in found.races:
        if finding.kind == "race":
            facts = finding.facts
            kind = "/".join(touch_of(facts[name]["command"], facts["image"], found, facts[name])
                            for name in ("first", "second"))
            for name in (kind, *{wait["how"] for wait in facts["waits"]}):
                shown.named[name] += 1
                shown.other[name] += facts["second"]["stream"] in changed


def touch_of(command: str, image: int, found: races.Races, step: dict[str, Any]) -> str:
    """What a step does to an image: all of it, or a part that it reads or writes."""
    if command in ("CreateImage", "DeleteImage"):
        return WHOLE
    if command != "CopyRect":
        return WRITES
    target = found.output.events[step["event"] - 1].fetched()[4][1]
    return WRITES if target == image else READS


# --- Large inputs ---


def check_speed(top: Path, program: Path, tally: Tally, seconds: int) -> None:
    """The run of a script of 112,032 events is looked at within seconds of a processor."""
    with tempfile.NamedTemporaryFile(suffix=".script") as script:
        script.write(joined_script(program).encode())
        script.flush()
        took = [answers.seconds_of(top, program, ["races", script.name])]
        while min(took) >= seconds and len(took) < TRIES:
            took.append(answers.seconds_of(top, program, ["races", script.name]))
    told = f"112,032 events take {min(took):.2f} seconds"
    tally.note(told)
    tally.tell("112,032 events in time", None if min(took) < seconds else told)
