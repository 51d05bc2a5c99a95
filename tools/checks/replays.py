"""What view/ says of each event, against a second run of the script in tests/model_run.py.

The two share nothing. For each script they agree on:

- the images, the buckets and buffers, the release counts and the counts of errors after each event
- which command failed with which error
- which waits are made, kept and dropped
- all of this without the script, but for fences that were dropped
"""

from collections.abc import Callable
from pathlib import Path

from tests import model_run
from tests.model_script import Reader, Refused
from tools.checks.tally import Tally
from view.history import History
from view.script import Script
from view.sources import read_script
from view.standing import Standing
from view.working import Deed
from zorvleid.output import Event, Output, read_output

ERRORS = ("0501", "0502", "0505")
LONGEST = 20_000
# The images, and of each stream the release count, the errors, the buckets and the buffers.
Stream = tuple[int, list[int], dict[int, bytes], dict[int, bytes]]
State = tuple[dict[int, tuple[int, int, str]], list[Stream]]


class Watched(model_run.Run):
    """A run that keeps how things stand after each of its events."""

    def __init__(self, script: Reader) -> None:
        self.states: list[State] = []
        self.made: list[tuple[int, int, int, int, bool]] = []
        super().__init__(script)
        self.keep_state()
        self.states = self.states[1:]

    def round(self) -> None:
        if not isinstance(self.events, Telling):
            self.events = Telling(self.keep_state)
        super().round()

    def wait(self, number: int, order: int, to: int, release: int) -> bool:
        kept = super().wait(number, order, to, release)
        self.made.append((number, order, to, release, kept))
        return kept

    def keep_state(self) -> None:
        """Called before an event is kept, so it keeps the state after the event before."""
        images = {image: (width, height, "".join(f"{texel:08x}" for texel in texels))
                  for image, (width, height, texels) in self.images.items()}
        streams = [(s.release, s.errors[:], {key: bytes(data) for key, data in s.buckets.items()},
                    {key: bytes(data) for key, data in s.buffers.items()}) for s in self.streams]
        self.states.append((images, streams))


class Telling(list[str]):
    """A list that calls a function before it grows."""

    def __init__(self, tell: Callable[[], None]) -> None:
        super().__init__()
        self.tell = tell

    def append(self, item: str) -> None:
        self.tell()
        super().append(item)


def images_of(script: bytes) -> list[dict[int, tuple[int, int, str]]]:
    """The images after each event of a run on one thread: width, height and texels by number."""
    return [images for images, _ in Watched(Reader(script)).states]


def check(top: Path, program: Path, tally: Tally) -> None:
    """Reports each script whose replay says something else."""
    for folder in ("examples", "tests/cases"):
        for path in sorted((top / folder).rglob("*.script")):
            stored = (
                path.with_suffix(".stdout").exists() and not path.with_suffix(".words").exists()
            )
            if not stored or path.stat().st_size > LONGEST:
                continue
            try:
                script = Reader(path.read_bytes())
            except Refused:
                continue
            tally.tell(f"replay of {path.relative_to(top)}", fault_of(script, path))


def fault_of(script: Reader, path: Path) -> str | None:
    try:
        run = Watched(script)
        text = path.with_suffix(".stdout").read_bytes()
        with_script = fault_of_history(read_output(text), read_script(str(path)), run)
        return with_script or fault_of_history(read_output(text), None, run)
    except Exception as error:  # whatever is wrong with one case is reported
        return repr(error)


def fault_of_history(output: Output, script: Script | None, run: Watched) -> str | None:
    """The fault of a history, or None."""
    states: list[State] = []

    def watch(event: Event, deed: Deed, standing: Standing) -> None:
        images = {number: (picture.width, picture.height, picture.texels.hex())
                  for number, picture in standing.images.pictures.items()}
        streams = [(stand.release, [stand.errors[error] for error in ERRORS],
                    {key: bytes(data) for key, data in stand.buckets.items()},
                    {key: bytes(data) for key, data in stand.buffers.items()})
                   for stand in standing.streams]
        states.append((images, streams))

    history = History(output, script, watch)
    if [event.text for event in output.events] != list(run.events):
        return "the case is not a run on one thread"
    for number, (got, wanted) in enumerate(zip(states, run.states), 1):
        if got != wanted:
            return f"after event {number} it has {got}, and the run {wanted}"
    return fault_of_marks(history, run) or fault_of_waits(history, run, script is not None)


def fault_of_marks(history: History, run: Watched) -> str | None:
    """An event is failed exactly where the run counts an error, with that error."""
    before = [[0, 0, 0] for _ in run.streams]
    for number, ((_, streams), deed) in enumerate(zip(run.states, history.deeds), 1):
        rose = [error for at, (_, errors, _, _) in enumerate(streams)
                for error, one, other in zip(ERRORS, before[at], errors)
                if one != other]
        before = [errors for _, errors, _, _ in streams]
        if (deed.mark == "failed", [deed.error] if deed.mark == "failed" else []) != (
            bool(rose),
            rose,
        ):
            return (
                f"event {number} is {deed.mark or 'done'} {deed.error}, and the run counts {rose}"
            )
    return None


def fault_of_waits(history: History, run: Watched, has_script: bool) -> str | None:
    """The waits are those of the run, in their order.

    Without the script those fences are unknown that have no mark.
    """
    got = sorted((wait.stream, wait.number, wait.target, wait.release, wait.how != "dropped")
                 for wait in history.standing.waits.all)
    ended = {(number, order, to, release) for number, order, to, release, _ in run.endings}
    by_command = {(wait.stream, wait.number, wait.target, wait.release)
                  for wait in history.standing.waits.all if wait.by != "fence"}
    wanted = sorted(made for made in run.made if has_script or made[:4] in ended | by_command)
    if not has_script:
        got = [made for made in got if made[:4] in ended | by_command]
        return None if set(got) == set(wanted) else f"it has the waits {got}, and the run {wanted}"
    return None if got == wanted else f"it has the waits {got}, and the run {wanted}"
