"""The Python package: its types, its installation without network, and its calls."""

import contextlib
import doctest
import importlib
import inspect
import io
import os
import re
import subprocess
import sys
import tempfile
from collections.abc import Callable, Iterator
from pathlib import Path
from typing import Any

from tests.model_script import Reader
from tools.checks import typed_python
from tools.checks.tally import Tally
from zorvleid import (
    Counts,
    Output,
    ProgramFault,
    ProgramRefused,
    Script,
    Stream,
    read_output,
    read_script,
    verify,
)
from zorvleid import check as check_script
from zorvleid import run as run_script
from zorvleid.commands import NAMED, TABLE, encode

PACKAGE, PACKER = "python/zorvleid", "python/pack_zorvleid.py"
README = "python/README.md"
# modules with examples, and how many there are at least
EXAMPLES = {"zorvleid": 6, "zorvleid.assembler": 2, "zorvleid.disassembler": 3,
            "zorvleid.output": 2, "zorvleid.program": 2, "zorvleid.reader": 2,
            "zorvleid.verdict": 3, README: 28}
WRONG = "gpu-script 1\nflush 0\n"
SNAKE = re.compile(r"(?<!^)(?=[A-Z])")


def check(top: Path, program: Path, tally: Tally) -> None:
    """Reports each part of the package that is wrong."""
    check_types(top, tally)
    check_installation(top, tally)
    check_examples(top, program, tally)
    for command in TABLE.values():
        told = inspect.signature(getattr(Stream, SNAKE.sub("_", command.name).lower())).parameters
        wanted = {"self", *command.keys, *(["size", "data"] if command.has_data else [])}
        tally.tell(
            f"the method of {command.name}",
            None if told.keys() == wanted else f"it takes {list(told)}",
        )
    tally.tell("a script that is made by calls", fault_of_calls(top))
    for script in sorted((top / "examples").glob("*.script")):
        tally.tell(f"the verdict on {script.stem}", fault_of_verdict(script, program))
        tally.tell(f"the run of {script.stem}", fault_of_run(script, program))
    tally.tell("a script that is refused", fault_of_refused(program))
    outputs = [
        path
        for folder in ("examples", "tests/cases/runs", "tests/cases/results", "tests/cases/waits")
        for path in sorted((top / folder).glob("*.stdout"))
    ]
    told_wrong = ((path.name, fault) for path in outputs if (fault := fault_of_output(path)))
    tally.tell_all("outputs that are read and written again", told_wrong)


def check_types(top: Path, tally: Tally) -> None:
    """The package alone, as those see it who install it."""
    mypy = typed_python.checker(top)
    if mypy is None:
        tally.skip("the types of the package", "mypy is missing (apt install mypy)")
        return
    ran = run([*mypy, "--strict", "--cache-dir", os.devnull, PACKAGE, PACKER], top)
    tally.tell("the types of the package", None if ran.returncode == 0 else ran.stdout)


def check_installation(top: Path, tally: Tally) -> None:
    """pip installs the package into an empty environment, with no index to ask."""
    with tempfile.TemporaryDirectory() as folder:
        python = Path(folder) / "bin/python"
        if run([sys.executable, "-m", "venv", folder], top).returncode != 0:
            tally.skip(
                "the installation of the package",
                "venv or pip is missing (apt install python3-venv)",
            )
            return
        pip = [python, "-m", "pip", "install", "--no-index", "--disable-pip-version-check"]
        text = top / "examples/two_texels.commands"
        wanted = text.with_suffix(".script").read_text()
        hows: tuple[tuple[list[str], str], ...] = (
            ([], "site-packages"), (["-e"], "python/zorvleid"))
        for how, place in hows:
            said = " ".join(["pip install", *how])
            ran = run([*pip, *how, top / "python"], top)
            tally.tell(said, None if ran.returncode == 0 else ran.stdout + ran.stderr)
            ran = run([python, "-m", "zorvleid", "assemble", text], Path(folder))
            tally.tell(f"the package after {said}", None if ran.stdout == wanted else str(ran))
            ran = run([python, "-c", "import zorvleid; print(zorvleid.__file__)"], Path(folder))
            tally.tell(f"its place after {said}", None if place in ran.stdout else str(ran))


def check_examples(top: Path, program: Path, tally: Tally) -> None:
    """The examples of the package and of its README say what they give, with this program."""
    before = os.environ.get("ZORVLEID")
    os.environ["ZORVLEID"] = str(program)
    for name, least in EXAMPLES.items():
        said = io.StringIO()
        with contextlib.redirect_stdout(said):
            found = (doctest.testfile(str(top / name), module_relative=False) if name == README
                     else doctest.testmod(importlib.import_module(name)))
        counts = f"{found.attempted} examples, and {least} are wanted"
        fault = said.getvalue() or (None if found.attempted >= least else counts)
        tally.tell(f"the examples of {name}", fault)
    del os.environ["ZORVLEID"]
    if before is not None:
        os.environ["ZORVLEID"] = before


def run(words: list[Any], folder: Path) -> "subprocess.CompletedProcess[str]":
    """A command, in a folder, of which no package is found that is not installed."""
    told = {name: value for name, value in os.environ.items() if name != "PYTHONPATH"}
    return subprocess.run(
        list(map(str, words)), cwd=folder, env=told, capture_output=True, text=True, check=False
    )


def fault_of_calls(top: Path) -> str | None:
    """A script that is made by calls is the one of the same text."""
    script = Script()
    painter, copier = script.stream("low", ring=32), script.stream("high", ring=32)
    painter.create_image(image=1, width=4, height=4)
    copier.create_image(image=2, width=8, height=6)
    painter.clear_rect(image=1, x=0, y=0, w=4, h=4, texel=0x2F9E5FFF)
    copier.clear_rect(image=2, x=0, y=0, w=8, h=6, texel=0x6B7280FF)
    painter.insert_fence(release=1)
    painter.flush()
    copier.flush()
    copier.copy_rect(source=1, x=0, y=0, target=2, x2=2, y2=1, w=4, h=4)
    copier.flush(after=[(painter, 1)])
    told = [
        line
        for line in (top / "examples/two_streams_and_a_fence.script").read_text().splitlines()
        if line and not line.startswith("#")
    ]
    return None if script.text().splitlines() == told else f"it is {script.text()!r}"


def fault_of_verdict(script: Path, program: Path) -> str | None:
    """The program says yes to an example, and no where an order number is another."""
    read, output = read_script(script.read_bytes()), script.with_suffix(".stdout").read_bytes()
    found = read_output(output)
    told = verify(read, output, program=program)
    if not told.is_yes or list(told.images) != found.images:
        return f"{told}"
    told = verify(
        read.text(), output.replace(b"order 1 1 ", b"order 1 7 "), program=program
    )
    return None if (told.event, told.rule) == (1, 2) else f"another order number: {told}"


def fault_of_run(script: Path, program: Path) -> str | None:
    """A run gives the stored output, one with workers a legal one, and a count those of the text.

    The command and the arguments of each step have all that its words have, but for data.
    """
    read, stored = read_script(script.read_bytes()), script.with_suffix(".stdout").read_bytes()
    ran, beside = run_script(read, program=program), run_script(read, 2, 1, program)
    if ran.text != stored or (ran.status == 0) != (ran.said == ""):
        return f"it ends with {ran.status} and {ran.said!r}: {ran.text!r}"
    if not verify(read, beside, True, program) or len(beside.output.views) != 17:
        return "with workers it gives no legal output"
    counts, reader = check_script(read, program), Reader(script.read_bytes())
    if counts != Counts(len(reader.plans), reader.actions, reader.flushes):
        return f"the count is {counts}"
    for event in ran.output.events:
        values = [value for _, value in event.fetched()]
        made = encode(NAMED[event.command], event.arguments) if event.command else []
        fits = not event.command or event.command == "Noop" or made[1:] == values[1:len(made)]
        if (event.kind == "step") != (event.command is not None) and event.kind != "lost":
            return f"the command of {event.text} is {event.command}"
        if not fits or event.command and TABLE[values[0] >> 21].name != event.command:
            return f"the command of {event.text} is {event.command} {event.arguments}"
    return None


def fault_of_refused(program: Path) -> str | None:
    """The program refuses a script by its line and its kind; one that is missing does not start."""
    calls: tuple[Callable[..., object], ...] = (check_script, run_script)
    for call in calls:
        try:
            return f"it is not refused: {call(WRONG, program=program)}"
        except ProgramRefused as refused:
            if (refused.line, refused.kind) != (2, "Order"):
                return f"it is refused by {refused}"
        try:
            return f"it starts: {call(WRONG, program='/nowhere')}"
        except ProgramFault as fault:
            if "does not start: /nowhere" not in str(fault):
                return str(fault)
    return None


def fault_of_output(path: Path) -> str | None:
    """The reading of an output has all that it says."""
    data = path.read_text()
    return (
        None
        if data == "".join(line + "\n" for line in lines_of(read_output(data.encode())))
        else "it is not the same"
    )


def lines_of(output: Output) -> Iterator[str]:
    """An output as text."""
    if output.is_verdict:
        yield f"yes events {output.event_count}"
    if output.version == 2:
        yield "gpu-journal 2"
        yield from (
            f"name {number} {space} {name}" for number, (space, name) in enumerate(output.names, 1)
        )
    for event in output.events:
        yield event.text
    for image in output.images:
        yield f"image {image.number} {image.width} {image.height}"
        for y in range(image.height):
            yield " ".join(f"{image.texel(x, y):08x}" for x in range(image.width))
    for end in output.streams:
        yield (
            f"stream {end.number} {end.end} entries {end.entries} "
            f"release {end.release} token {end.token} "
            f"words {end.words} errors {' '.join(map(str, end.errors))}"
        )
    for mark in output.marks:
        numbers = f"{mark.stream} {mark.number} {mark.target} {mark.release}"
        yield f"mark {numbers} {mark.how} {mark.value}"
    yield from (
        f"dump {dump.stream} {dump.action} {dump.place} {dump.value:08x}" for dump in output.dumps
    )
    yield from (f"view {view.viewer} {view.events} {view.sum:08x}" for view in output.views)
