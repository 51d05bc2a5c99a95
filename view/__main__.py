"""The command line of the tools, which ./zorvleid calls.

    view/run pictures | timeline | log | stats | races | who | state | compare | explain

docs/zorvleid.1 describes each tool. The status is 0 where all was written, 2 for words that are no
command or name a file that is read and written, 3 and 4 where reading or writing failed, 5 for a
text that is no output, and 7 for one that is too long. `explain` has the status of `verify`.
"""

import argparse
import gc
import signal
import sys
from pathlib import Path
from typing import NoReturn

from view import asking, explain, files, looking, pictures, programs, showing, timeline, trim
from view.compare import NotOfOneScript
from view.cut import completed
from view.history import ENDS_HERE
from view.sources import NoScript, WrongOutput, read_run
from zorvleid import Refused as WrongText
from zorvleid import console
from zorvleid.errors import printable
from zorvleid.output import OutputRefused

USAGE, READ_FAULT, WRITE_FAULT, REFUSED, NO_MEMORY, TOO_LONG = 2, 3, 4, 5, 6, 7
TOOLS = looking.TOOLS | asking.TOOLS | {"trim": trim.run, "view": showing.run}
WRONG = (pictures.TooLarge, pictures.NoEvent, files.WrongName, console.ReadAndWritten,
         asking.WrongQuestion)  # which are bad words


class Words(argparse.ArgumentParser):
    """Reports wrong words in one line, as the program does."""

    def error(self, message: str) -> NoReturn:
        self.exit(USAGE, f"bad command line: {message}\n")


def scale(text: str) -> int:
    if not (text.isascii() and text.isdigit() and 1 <= int(text) <= pictures.SCALE_AT_MOST):
        raise argparse.ArgumentTypeError(
            f"{text!r} is no number from 1 to {pictures.SCALE_AT_MOST}"
        )
    return int(text)


def file_name(text: str) -> str:
    if not text:
        raise argparse.ArgumentTypeError("the name of the file is empty")
    return text


def words() -> argparse.Namespace:
    parser = Words(prog="zorvleid", allow_abbrev=False)
    tools = parser.add_subparsers(dest="tool", required=True, parser_class=Words)
    tool = tools.add_parser("pictures", allow_abbrev=False,
                            help="write the images of an output as PNG files, and a sheet")
    tool.add_argument("--into", metavar="FOLDER", type=Path, default=Path("pictures"),
                      help="where to (left out: pictures)")
    tool.add_argument("--scale", metavar="N", type=scale, default=1,
                      help="repeat each texel N times (left out: 1)")
    tool.add_argument("--at", metavar="N", type=looking.number,
                      help="as they were after event N (left out: at the end)")
    looking.add_output(tool)
    tool = tools.add_parser("timeline", allow_abbrev=False,
                            help="write the history of an output as a trace or as a page")
    tool.add_argument(
        "--trace", metavar="FILE", type=file_name, help="for Perfetto and chrome://tracing"
    )
    tool.add_argument(
        "--page", metavar="FILE", type=file_name, help="one HTML file that needs nothing else"
    )
    looking.add_script(tool)
    looking.add_output(tool)
    tool = tools.add_parser(
        "explain", allow_abbrev=False, help="run verify, and say what its answer means"
    )
    tool.add_argument("--program", metavar="FILE", type=Path,
                      help="the program that verifies (left out: that of ./zorvleid)")
    tool.add_argument("--whole", action="store_true", help="judge the whole output")
    tool.add_argument("--quiet", action="store_true", help="write nothing where the answer is yes")
    tool.add_argument("input", metavar="SCRIPT", nargs="?", default=console.STANDARD)
    tool.add_argument("journal", metavar="JOURNAL", nargs="?")
    looking.add_tools(tools)
    asking.add_tools(tools)
    trim.add_tool(tools)
    showing.add_tool(tools)
    asked, more = parser.parse_known_args()
    if asked.tool == "trim" and asked.output is None:  # it may stand after an option
        is_named = more[:1] == ["-"] or more[:1] and not more[0].startswith("-")
        asked.output = more.pop(0) if is_named else None
    if more:
        parser.error(f"unrecognized arguments: {' '.join(more)}")
    if asked.tool == "timeline" and not (asked.trace or asked.page):
        parser.error("timeline needs --trace FILE or --page FILE")
    return asked


def inputs_of(asked: argparse.Namespace) -> list[str]:
    """The names of the files that are read."""
    keys = ("output", "input", "journal", "first", "second", "script")
    named = [getattr(asked, key, None) for key in keys]
    return [name for name in named if name] or [console.STANDARD]


def check_files(asked: argparse.Namespace) -> None:
    """Refuses names of outputs before anything is read. `pictures` names its files later."""
    named = [getattr(asked, name, None) for name in ("trace", "page")]
    files.targets_of([name for name in named if name], inputs_of(asked))
    if asked.tool not in ("pictures", "timeline"):
        console.refuse_overwriting(inputs_of(asked), [console.STANDARD])


def complain(line: object, status: int) -> int:
    print(line, file=sys.stderr)
    return status


def show(asked: argparse.Namespace) -> int:
    """Writes what was asked for, of an output."""
    is_timeline = asked.tool == "timeline"
    script = asked.script if is_timeline else None
    output, plans = read_run(asked.output, script, has_journal=is_timeline)
    output = completed(output, plans)
    if is_timeline:
        is_cut = timeline.write(output, asked.trace, asked.page, plans)
    else:
        is_cut = pictures.write(output, asked.into, asked.scale, asked.at, inputs_of(asked))
    looking.note([ENDS_HERE] if is_cut else [])
    return 0


def answered() -> int:
    """Does what the words ask for, and answers the status."""
    try:
        asked = words()
        check_files(asked)
        if asked.tool in TOOLS:
            return TOOLS[asked.tool](asked)
        if asked.tool == "explain":
            names = (asked.input, asked.journal)
            return explain.explain(names, asked.program, asked.whole, asked.quiet)
        return show(asked)
    except (OutputRefused, NoScript, WrongOutput, NotOfOneScript, WrongText) as refused:
        return complain(refused, REFUSED)
    except asking.Refused as refused:
        return complain(refused, refused.status)
    except console.ReadFault as fault:
        return complain(fault, READ_FAULT)
    except WRONG as wrong:
        return complain(f"bad command line: {printable(str(wrong))}", USAGE)
    except console.TooLong as fault:
        return complain(fault, TOO_LONG)
    except console.WriteFault as fault:
        return complain(fault, WRITE_FAULT)
    except programs.NotStarted as fault:
        return complain(fault, programs.NOT_STARTED)
    except MemoryError:
        return complain("no memory", NO_MEMORY)
    except Exception as fault:  # a fault of the tool itself
        return complain(
            f"fault of the tool: {type(fault).__name__}: {' '.join(str(fault).split())}",
            WRITE_FAULT)


def main() -> int:
    gc.disable()  # a tool leaves no circles of objects, and looking for them takes a sixth longer
    signal.signal(signal.SIGPIPE, signal.SIG_DFL)
    return console.interruptible(answered)


if __name__ == "__main__":
    sys.exit(main())
