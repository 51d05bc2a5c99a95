"""The tool `view`: from a script, a text of commands or an output to its page, in the browser."""

import argparse
import os
import sys
import tempfile
import webbrowser
from pathlib import Path
from typing import Any

from zorvleid import assemble, console
from zorvleid.output import Output

from . import asking, files, looking, sources, timeline
from .history import ENDS_HERE
from .script import Script

DISPLAYS = ("DISPLAY", "WAYLAND_DISPLAY", "BROWSER")  # one is set where a browser can be seen


def add_tool(tools: Any) -> None:
    """Adds its words."""
    tool = tools.add_parser("view", allow_abbrev=False,
                            help="show the page of a script, of commands or of an output")
    tool.add_argument("input", metavar="FILE", nargs="?", default=console.STANDARD)
    tool.add_argument("--page", metavar="FILE", help="where the page goes (left out: a new file)")
    asking.add_program(tool)


def read(name: str, program: Path | None) -> tuple[Output, Script | None]:
    """The output of a file, or of the run of the script that it is or that its commands make."""
    data = sources.read_filled(name)
    if sources.head_of(data) == b"gpu-commands":
        return asking.run_of(assemble(data, name).text().encode(), program)
    return asking.run_given(data, name, program)


def place_of(name: str) -> str:
    """A new place for the page of a file."""
    stem = "page" if name == console.STANDARD else Path(name).stem
    return str(Path(tempfile.mkdtemp(prefix="zorvleid-")) / f"{stem}.html")


def show(path: Path) -> None:
    """Opens a page in the browser, where there is one."""
    if sys.platform != "darwin" and not any(map(os.environ.get, DISPLAYS)):
        return
    try:
        webbrowser.open(path.resolve().as_uri())
    except webbrowser.Error:
        return


def run(asked: argparse.Namespace) -> int:
    """Writes the page, names it, and shows it."""
    output, script = read(asked.input, asked.program)
    place = asked.page or place_of(asked.input)
    is_cut = timeline.write(output, None, place, script)
    if files.target_of(place).replaced is not None:  # no device or pipe, which has no page
        looking.write_lines([place])
        show(Path(place))
    looking.note([ENDS_HERE] if is_cut else [])
    return 0
