"""What `trim` writes: scripts that run to the state after an event.

The state after an event of a run is that of tests/model_history.py, and a trimmed script is run by
tests/model_run.py. Both must have the same images, and streams with the same counts, buckets,
buffers and results. The outputs are those of the cases, after some of their events; those of the
examples, after each; and those of hostile scripts that the program ran with workers.
"""

from collections.abc import Iterable, Iterator
from pathlib import Path

from tests import hostile, model_history, model_run
from tests.model_script import Reader
from tools.checks import outputs
from tools.checks import workers as runs
from tools.checks.tally import Tally
from view.trim import Trimmed
from zorvleid import read_output, read_script

FOLDERS = ("examples", "tests/cases")
MOST = 3000  # events of a case whose states are compared, since the model looks at all anew
SEEDS, WORKERS, SECONDS = 40, "4", 120
LEAST = 400  # states that are compared
# A client that stores another word of a memory between two uploads of one flush.
RACED = (
    "a raced memory",
    b"""gpu-script 1
stream 1 normal 64
memory 0 1
fill 0 0 1
put 0 20400004 1 2 1 20c00009 1 0 0 1 1 1 0 0 20c00009 1 1 0 1 1 1 0 0
flush 22
fill 0 0 2
""",
    b"order 1 1 23\nstep 1 0:20400004 1:00000001 2:00000002 3:00000001\n"
    b"step 1 4:20c00009 5:00000001 6:00000000 7:00000000 8:00000001 9:00000001 10:00000001 "
    b"11:00000000 12:00000000 64:00000001\n"
    b"step 1 13:20c00009 14:00000001 15:00000001 16:00000000 17:00000001 18:00000001 19:00000001 "
    b"20:00000000 21:00000000 64:00000002\nfinish 1 1\n",
)
State = tuple[object, ...]


def check(top: Path, program: Path, tally: Tally) -> None:
    """Reports each trimmed script that does not run to the state of its event."""
    count = 0
    for name, script, text in (*stored(top), *hostile_runs(program, SEEDS), RACED):
        total = len(read_output(text).events)
        places = range(total + 1) if name.startswith("examples/") else some(total)
        count += len(places)
        tally.tell(f"trim of {name}", fault_of_run(script, text, places))
    tally.tell("states of trimmed scripts", None if count >= LEAST else f"{count} are too few")


def check_large(top: Path, program: Path, tally: Tally) -> None:
    """The same, with many more hostile scripts."""
    check(top, program, tally)
    for name, script, text in hostile_runs(program, 20 * SEEDS):
        places = some(len(read_output(text).events))
        tally.tell(f"trim of {name}", fault_of_run(script, text, places))


def stored(top: Path) -> Iterator[tuple[str, bytes, bytes]]:
    """The name, the script and the output of each case of `run`."""
    for name, text in outputs.outputs_of_cases(top, with_large=False):
        script = (top / name).with_suffix(".script")
        is_run = script.exists() and not outputs.is_verdict(text)
        if is_run and text.count("\n") < MOST and b"\njournal\n" not in script.read_bytes():
            yield str(name), script.read_bytes(), text.encode()


def hostile_runs(program: Path, count: int) -> Iterator[tuple[str, bytes, bytes]]:
    """The same of hostile scripts that are run with workers."""
    for seed in range(1, count + 1):
        script = hostile.script(seed, hostile.Brief).encode()
        ran = runs.run(program, ["run", "--workers", WORKERS], script, SECONDS)
        if ran.output.count(b"\n") < MOST:
            yield f"the hostile script {seed}", script, ran.output


def some(total: int) -> list[int]:
    """Numbers of events, from the first to the last."""
    places = {0, 1, total // 3, total // 2, 2 * total // 3, total - 1, total}
    return sorted(places & {*range(total + 1)})


def fault_of_run(script: bytes, text: bytes, places: Iterable[int]) -> str | None:
    """The first event whose trimmed script has another state, or None."""
    events, read = read_output(text).events, read_script(script)
    history, wanted = model_history.History(Reader(script)), {}
    for number in range(len(events) + 1):
        wanted[number] = state(history) if number in set(places) else ()
        if number < len(events):
            history.take(events[number].text)
    for number in places:
        trimmed = Trimmed(read, events[:number]).made().text()
        if state(model_run.Run(Reader(trimmed.encode()))) != wanted[number]:
            return f"after event {number} of {len(events)} the state is another"
    return None


def state(run: "model_run.Standings[model_run.S]") -> State:
    """The images and the streams of a run, but for what it is about to do."""
    images = {image: (width, height, tuple(texels))
              for image, (width, height, texels) in run.images.items()}
    return images, [(None if s.gone == "lost memory" else s.gone, s.entries, s.fetched, s.release,
                     s.token, tuple(s.errors), filled(s.buckets), filled(s.buffers),
                     dict(s.results)) for s in run.streams]


def filled(things: dict[int, bytearray]) -> dict[int, bytes]:
    return {number: bytes(data) for number, data in things.items()}
