"""The tools that answer one question on a run, as they are called: their words and their inputs."""

import argparse
import json
import sys
from pathlib import Path
from typing import Any

from zorvleid import console
from zorvleid.output import Output, read_output
from zorvleid.script import BYTES_AT_MOST

from . import cost, cut, files, looking, many, programs, races, sources, state, stats, texels
from .history import ENDS_HERE, History, standing_after
from .plain import counted, joined
from .script import Script

SOME_RACES = 1
RAN = (0, 1, 8)  # the statuses of a run that wrote its whole output


class WrongQuestion(Exception):
    """A question on an event, an image or a texel that is not there."""


class Refused(Exception):
    """An input that the program refuses, with its status and what it says."""

    def __init__(self, ran: programs.Ran) -> None:
        super().__init__(ran.stderr.decode("utf-8", "backslashreplace").rstrip("\n"))
        self.status = ran.returncode


def add_program(tool: argparse.ArgumentParser) -> None:
    tool.add_argument("--program", metavar="FILE", type=Path,
                      help="the program (left out: that of ./zorvleid)")


def add_json(tool: argparse.ArgumentParser, what: str) -> None:
    tool.add_argument("--json", action="store_true", help=f"as JSON, {what}")


def add_tools(tools: Any) -> None:
    """Adds the words of all of them."""
    tool = tools.add_parser("stats", allow_abbrev=False,
                            help="count what a run did, by stream and in all")
    tool.add_argument("input", metavar="FILE", nargs="?", default=console.STANDARD)
    add_json(tool, "one object, by docs/stats.schema.json")
    looking.add_script(tool)
    add_program(tool)
    tool = tools.add_parser("races", allow_abbrev=False,
                            help="say what a run of a script with workers may change")
    tool.add_argument("script", metavar="SCRIPT")
    tool.add_argument("output", metavar="OUTPUT", nargs="?")
    add_json(tool, "an object a finding")
    add_program(tool)
    tool = tools.add_parser("who", allow_abbrev=False,
                            help="name the commands that made a texel")
    add_output(tool)
    tool.add_argument("--image", metavar="I", type=looking.number, required=True)
    tool.add_argument("--texel", metavar="X,Y", type=place, required=True)
    add_json(tool, "one object, by docs/who.schema.json")
    tool = tools.add_parser("cost", allow_abbrev=False, help="say what a run of a script will take")
    tool.add_argument("input", metavar="FILE", nargs="?", default=console.STANDARD)
    tool.add_argument("--cost", action="store_true", help="which says so to ./zorvleid")
    add_program(tool)
    tool = tools.add_parser("each", allow_abbrev=False, help="judge each file of a folder")
    tool.add_argument("--each", metavar="FOLDER", required=True)
    tool.add_argument("--whole", action="store_true", help="judge whole outputs")
    tool.add_argument("--quiet", action="store_true", help="write nothing to standard output")
    add_program(tool)
    tool = tools.add_parser("state", allow_abbrev=False, help="say how things stand")
    add_output(tool)
    add_json(tool, "one object, by docs/state.schema.json")
    looking.add_script(tool)


def add_output(tool: argparse.ArgumentParser) -> None:
    tool.add_argument("output", metavar="OUTPUT", nargs="?", default=console.STANDARD)
    tool.add_argument("--at", metavar="N", type=looking.number,
                      help="after event N (left out: at the end)")


def place(text: str) -> tuple[int, int]:
    x, comma, y = text.partition(",")
    if not comma:
        raise argparse.ArgumentTypeError(f"{text!r} is no place X,Y")
    return looking.number(x), looking.number(y)


def run_of(data: bytes, program: Path | None) -> tuple[Output, Script]:
    """The output of a run on one thread, and its script."""
    ran = programs.run(program, ["run"], data)
    if ran.returncode not in RAN:
        raise Refused(ran)
    lines = data.decode("latin-1").split("\n")
    return read_output(ran.stdout), Script(lines)


def run_given(
    data: bytes, name: str, program: Path | None, script: str | None = None
) -> tuple[Output, Script | None]:
    """The output that a file has, or that of the run of the script that it has."""
    if sources.head_of(data) == b"gpu-script" and sources.parted(data)[0] is None:
        return run_of(data, program)
    output, known = sources.run_in(data, name, script)
    return cut.completed(output, known), known


def run_stats(asked: argparse.Namespace) -> int:
    """Counts what a run did, of a script or of an output."""
    data = sources.read_filled(asked.input)
    output, script = run_given(data, asked.input, asked.program, asked.script)
    numbers = stats.Stats()
    history = History(output, script, numbers)
    numbers.end(history)
    if asked.json:
        looking.write_lines([json.dumps(stats.record(numbers, script is not None))])
    else:
        looking.write_lines(stats.lines(numbers, script is not None))
    looking.note(history.notes)
    return 0


def count_of(output: Output, at: int | None) -> int:
    """How many events are looked at."""
    if at is not None and at > len(output.events):
        raise WrongQuestion(f"--at {at}: the output has {counted(len(output.events), 'event')}")
    return len(output.events) if at is None else at


def run_state(asked: argparse.Namespace) -> int:
    """Says how things stand after an event of an output."""
    output, script = sources.read_run(asked.output, asked.script)
    output = cut.completed(output, script)
    count = count_of(output, asked.at)
    standing = standing_after(output, count, script)
    if asked.json:
        looking.write_lines([json.dumps(state.record(output, standing))])
    else:
        looking.write_lines(state.lines(output, standing))
    looking.note([ENDS_HERE] if output.is_cut else [])
    return 0


def run_who(asked: argparse.Namespace) -> int:
    """Names the commands that made a texel."""
    output, script = sources.read_run(asked.output)
    output = cut.completed(output, script)
    count, writes = count_of(output, asked.at), texels.Writes()
    pictures = standing_after(output, count, script, writes).images.pictures
    texel = texels.Texel(asked.image, *asked.texel)
    if (picture := pictures.get(texel.image)) is None:
        taken = writes.taken(texel.image)
        why = f"; event {taken.place + 1} deleted it" if taken else ""
        raise WrongQuestion(f"--image {texel.image}: no such image after event {count}{why}; "
                            f"there are {joined(sorted(pictures)) or 'none'}")
    if not (texel.x < picture.width and texel.y < picture.height):
        raise WrongQuestion(f"--texel {texel.x},{texel.y}: image {texel.image} is "
                            f"{picture.width} by {picture.height}")
    at = 4 * (texel.y * picture.width + texel.x)
    value = int.from_bytes(picture.texels[at:at + 4], "big")
    if asked.json:
        looking.write_lines([json.dumps(texels.record(writes, texel, value))])
    else:
        looking.write_lines(texels.lines(writes, texel, value))
    looking.note([ENDS_HERE] if output.is_cut else [])
    return 0


def run_races(asked: argparse.Namespace) -> int:
    """Writes the findings on a script, of its run on one thread or of an output of it."""
    if asked.script == asked.output == console.STANDARD:
        raise files.WrongName("standard input cannot be both the script and its output")
    data = sources.read(asked.script, BYTES_AT_MOST)
    if asked.output is None:
        output, script = run_of(data, asked.program)
    else:
        script = sources.script_of(asked.script, data)
        output = sources.journal_of(sources.read_filled(asked.output), asked.output)
    found = races.Races(output, script)
    looking.write_lines(races.lines(found, asked.json))
    return SOME_RACES if found.races else 0


def run_cost(asked: argparse.Namespace) -> int:
    """Counts a script as `check` does, and says what a run of it will take."""
    data = console.read(asked.input)
    ran = programs.run(asked.program, ["check"], data)
    if ran.returncode:
        raise Refused(ran)
    slowness = cost.slowness_here(asked.program or programs.built())
    script = Script(data.decode("latin-1").split("\n"))
    told = cost.cost_of(script, len(data), slowness)
    looking.write_lines([ran.stdout.decode().rstrip("\n"), str(told)])
    return 0


def run_each(asked: argparse.Namespace) -> int:
    """Judges each file of a folder, and answers the status of the worst."""
    found = many.answers(asked.each, asked.program or programs.built(), asked.whole)
    if not asked.quiet:
        looking.write_lines(many.lines(found))
    worst = many.worst_of(found)
    if worst.status != many.YES:
        print(worst, file=sys.stderr)
    return worst.status


TOOLS = {"stats": run_stats, "who": run_who, "state": run_state, "each": run_each,
         "cost": run_cost, "races": run_races}
