"""Outputs whose end is missing: bare journals, and outputs that are cut at any byte.

`log`, `timeline`, `compare` and `pictures` show what stands before the cut, as they show it of the
whole output, and say last that the output ends here. What is wrong before its end stays refused.
"""

import json
import subprocess
import tempfile
from collections.abc import Iterator, Sequence
from pathlib import Path

from tools.checks import outputs
from tools.checks.tally import Tally
from view import compare, cut, history, log, page, script, trace
from zorvleid.output import OutputRefused, read_output

BYTE_BY_BYTE = "names"  # each byte of this is a place to cut, and each line of the others
ENDS = history.ENDS_HERE
# Texts that are refused, though their end may be missing.
REFUSED = (
    "x", "order 1 1", "order 1 1 4\nx\nfinish 1 1\n", "order 1 1 4\nfinish 1 2\n",
    "order 4000000000 1 4\n", "order 17 1 4\nfinish 17 1\n", "order 0 1 4\n",
    "gpu-journal 2\nname 1 0 5\norder 2 1 0\n", "order 1 1 4\nimage 1 1 1\nxx\n0",
    "order 1 1 4\nstep 1 0:20200004 1:00000002\nmark 1 1 2 1 release 1004\n",
)


def check(top: Path, program: Path, tally: Tally) -> None:
    """Reports each cut output that is refused, or is not shown as the whole one is."""
    for path in sorted((top / "examples").glob("*.stdout")):
        text = path.read_text()
        plans = script.Script(path.with_suffix(".script").read_text().splitlines())
        ends: Sequence[int] = range(1, len(text) + 1)
        if path.stem != BYTE_BY_BYTE:
            ends = [at + 1 for at, char in enumerate(text) if char == "\n"]
        whole = history.History(read_output(text), plans)
        tally.tell_all(f"{path.stem}, cut", faults(text, ends, plans, whole))
    for text in REFUSED:
        tally.tell(f"{text!r}, which is refused", fault_of_refused(text))
    with tempfile.TemporaryDirectory() as name:
        for line, fault in calls(top, Path(name)):
            tally.tell(line, fault)


def faults(
    text: str, ends: Sequence[int], plans: script.Script, whole: history.History
) -> Iterator[tuple[str, str | None]]:
    """The cuts of a text that are not shown as they should be."""
    told = list(log.lines(whole, log.Choice(), False))
    for end in ends:
        for known in (plans, None):
            try:
                fault = fault_of_cut(text, end, known, whole, told)
            except Exception as error:  # this is what must not happen
                fault = repr(error)
            if fault is not None:
                yield f"after byte {end}, {'with' if known else 'without'} the script", fault


def fault_of_cut(
    text: str, end: int, plans: script.Script | None, whole: history.History, told: Sequence[str]
) -> str | None:
    """The fault of what is shown of the first bytes of an output, or None."""
    front = text[:end]
    lines = front.split("\n")[:-1]
    try:
        output = cut.completed(read_output(front, is_whole=False), plans)
    except OutputRefused as refused:
        return f"it is refused: {refused}" if lines else None
    shown = history.History(output, plans)
    count = sum(line.startswith(outputs.EVENTS) for line in lines)
    got = list(log.lines(shown, log.Choice(), False))
    is_so = shown.output.is_cut
    if is_so not in may_be_cut(front, text, plans is not None) or (got[-1:] == [ENDS]) != is_so:
        return f"whether it is cut: {shown.output.is_cut}, and its last line is {got[-1:]}"
    got = got[:-1] if shown.output.is_cut else got
    is_other = [line.strip() for line in got] != [line.strip() for line in told[:count]]
    if len(got) != count or plans and is_other:
        return f"its log ends with {got[-2:]}"
    return fault_of_shown(shown, plans, whole, count) if plans else None


def fault_of_shown(
    shown: history.History, plans: script.Script, whole: history.History, count: int
) -> str | None:
    """The fault of the images, the page, the trace and the comparison of a cut output."""
    if shown.output.is_cut:
        if shown.output.images != history.images_after(whole.output, count):
            return "its images are not those of its journal"
        both = compare.Comparison(shown, whole)
        if f"A: {ENDS}" not in compare.lines(both):
            return "compare does not say that it ends"
    made = page.text(shown.output, plans)
    records = json.loads(b"".join(trace.parts(shown)))["traceEvents"]
    says = (ENDS in made, records[-1]["name"] == ENDS)
    if says != (shown.output.is_cut, shown.output.is_cut):
        return "its page or its trace does not say whether it ends"
    late = [one for one in records if one.get("dur", 0) < 0 or one.get("ts", 0) > count + 1]
    return f"its trace has {late[0]}" if late else None


def may_be_cut(front: str, text: str, is_known: bool) -> tuple[bool, ...]:
    """Whether it has to be told that an end is missing.

    A line is not whole then, or that of a stream is missing, or that of a wait that ended. Without
    the script nobody knows of a fence but by that line.
    """
    if front == "gpu-journal 2\n":  # the output of a script without streams
        return (is_known,)
    if not front.endswith("\n") or front.count("\nstream ") != text.count("\nstream "):
        return (True,)
    if front.count("\nmark ") != text.count("\nmark "):
        return (True,) if is_known else (True, False)
    return (False,)


def fault_of_refused(text: str) -> str | None:
    """The fault of a text that has to be refused, or None."""
    try:
        history.History(cut.completed(read_output(text, is_whole=False)))
    except OutputRefused:
        return None
    return "it is shown"


def calls(top: Path, folder: Path) -> Iterator[tuple[str, str | None]]:
    """The tools as they are called, on a bare journal, a cut output, and one after its script."""
    text = (top / "examples/compositor.stdout").read_text()
    begin = (top / "examples/compositor.script").read_text()
    journal = text[: text.index("image ")]
    for name, data in (("bare", journal), ("cut", journal[:-20]), ("whole", text),
                       ("after", f"{begin}journal\n{journal[:-20]}")):
        (folder / name).write_text(data)
    for words, status, first, said in (
        ("log bare", 0, "", ""), ("log cut", 0, "", ""), ("log after", 0, "", ""),
        ("log --json cut", 0, "{", f"note: {ENDS}\n"), ("compare bare bare", 0, "the two", ""),
        ("compare whole cut", 1, "journal: the first", ""), ("compare after cut", 0, "the two", ""),
        ("timeline --page page cut", 0, "", f"note: {ENDS}\n"),
        ("pictures --into into after", 0, "", f"note: {ENDS}\n"),
    ):
        ran = subprocess.run([top / "view/run", *words.split()], capture_output=True, text=True,
                             check=False, cwd=folder)
        is_so = (ran.returncode, ran.stderr) == (status, said) and ran.stdout.startswith(first)
        is_last = said or ran.stdout.endswith(f"{ENDS}\n")
        yield f"{words}, which is cut", None if is_so and is_last else str(ran)[:500]
    log_of = subprocess.run([top / "view/run", "log", "after"], capture_output=True, text=True,
                            check=False, cwd=folder).stdout
    yield "the script before it", None if "up to PUT 21" in log_of else log_of[:300]
    made = (folder / "into/index.html").read_text()
    wanted = len(history.images_after(read_output(text), journal[:-20].count("\n")))
    is_so = f"<p>{ENDS.capitalize()}.</p>" in made and made.count("<figure>") == wanted
    yield "its sheet", None if is_so else made[-300:]
