"""The check that `log` names for each loss: with the script and without, its error is the loss's.

The losses are those of all cases, of the short inputs, and of hostile scripts. Which check gives
which error stands in docs/FORMATS.md.
"""

import re
import subprocess
from collections.abc import Iterator
from concurrent.futures import ThreadPoolExecutor
from pathlib import Path

from tests import hostile
from tools.checks import outputs
from tools.checks.tally import Tally
from view.history import History
from view.script import Script
from zorvleid.output import Event, read_output

SEEDS = 100
AT_LEAST = 200  # losses that name a check
CHECK = re.compile(r"^\| (\d+) \| [^|]+ \| (\w+) \|$", re.MULTILINE)
NAMED = re.compile(r"check (\d+): ")
ERRORS = {"1": "InvalidSize", "2": "OutOfBounds", "3": "UnknownCommand", "4": "InvalidArguments",
          "6": "Quota"}
# A stream that fetches as many words as it may, and one more: by a Noop, or by its last copy.
FIRST = "gpu-script 1\nstream 1 normal 18\nmemory 0 65536\nput 0 00400003 0 40000 3\nflush 6\n"
COPY, NOOP = "finish\nput {} 00600006 0 0 {:x} 0 0\nflush {}\n", "finish\nput 12 1\nflush 13\n"
COPIES, FULL, REST = 15, 65_536, 65_436  # the words of all copies but the last, and of that one


def check(top: Path, program: Path, tally: Tally) -> None:
    """Reports each loss with another check, and each error without its losses."""
    errors = dict(CHECK.findall((top / "docs/FORMATS.md").read_text(encoding="utf-8")))
    found: set[str] = set()
    count = 0
    for name, script, output in runs(top, program):
        texts = script.decode("latin-1").split("\n")
        for how, plans in (("with its script", Script(texts)), ("alone", None)):
            told = [named(event, text) for event, text in losses(output, plans)]
            count += len(told)
            found |= {number for number, _ in told if number}
            faults = [fault for number, (code, text) in told
                      if (fault := fault_of(errors.get(number), code, text))]
            tally.tell(f"the losses of {name}, {how}", faults[0] if faults else None)
    tally.tell("the losses that name a check", None if count >= AT_LEAST else f"they are {count}")
    left = sorted(errors.keys() - found, key=int)
    tally.tell("the checks that are named", f"no loss names {left}" if left else None)


def named(event: Event, text: str) -> tuple[str, tuple[str, str]]:
    """The check that is named for a loss, or nothing; its error, and the text."""
    check = NAMED.match(text)
    is_put = event.code == "2" and not event.words and "PUT" in text
    return ("PUT" if is_put else check[1] if check else ""), (event.code, text)


def fault_of(error: str | None, code: str, text: str) -> str | None:
    """How the check of a text is not one of the error, or None."""
    if "PUT" in text and not NAMED.match(text):
        return None if code == "2" else f"{text!r} stands for {ERRORS[code]}"
    return None if error == ERRORS[code] else f"{text!r} stands for {ERRORS[code]}"


def losses(output: str, script: Script | None) -> Iterator[tuple[Event, str]]:
    """The losses by an error, and what is said of each."""
    history = History(read_output(output.encode()), script)
    for event, deed in zip(history.output.events, history.deeds):
        if event.kind == "lost" and event.code != "memory":
            yield event, deed.text


def runs(top: Path, program: Path) -> Iterator[tuple[str, bytes, str]]:
    """The runs in which a stream is lost: a name, the script and the output."""
    for path, text in outputs.outputs_of_cases(top, with_large=False):
        script = (top / path).with_suffix(".script")
        if "\nlost " in text and script.exists() and not outputs.is_verdict(text):
            yield str(path), script.read_bytes().partition(b"\njournal\n")[0], text

    def ran(given: tuple[str, bytes]) -> tuple[str, bytes, str]:
        told = subprocess.run([program, "run"], input=given[1], capture_output=True, check=False)
        return *given, told.stdout.decode("ascii")

    with ThreadPoolExecutor() as pool:
        yield from (run for run in pool.map(ran, scripts(top)) if "\nlost " in run[2])


def scripts(top: Path) -> Iterator[tuple[str, bytes]]:
    """The short inputs of `run` that lose a stream, and hostile scripts."""
    rows = (top / "tests/short_inputs.tsv").read_text(encoding="utf-8").splitlines()[1:]
    for number, row in enumerate(rows, 2):
        _, words, status, *_, escaped = row.split("\t")
        if (words, status) == ("run", "1"):
            script = escaped.encode().decode("unicode_escape").encode("latin-1")
            yield f"line {number} of the short inputs", script
    for name, rest, last in (("ring", REST, NOOP), ("memory", REST + 1, "")):
        copies = (COPY.format(6 * at % 18, 4 * words, 6 * (at + 1) % 18)
                  for at, words in enumerate([FULL] * COPIES + [rest], 1))
        yield f"too many words of the {name}", "".join([FIRST, *copies, last]).encode()
    for seed in range(1, SEEDS + 1):
        yield f"hostile script {seed}", hostile.script(seed, hostile.Brief).encode()
