"""The command line: zorvleid assemble | disassemble | lint | reduce, which ./zorvleid calls.

The status is 0 where all was written, 1 where something was noted, 2 for words that are no command,
3 and 4 where reading or writing failed, 5 for a text that is wrong, and 7 for one that is too long.
`reduce` has 126 for a command that does not start, and where a signal ends it 128 and its number.
"""

import argparse
import os
import signal
import sys
from contextlib import suppress
from typing import Any, NoReturn

from . import assembler, console, disassembler, linter, reduce
from .errors import Refused, ScriptError, printable
from .reader import read_script
from .script import BYTES_AT_MOST, Script

NOTED, USAGE, READ_FAULT, WRITE_FAULT, REFUSED, NO_MEMORY, TOO_LONG = 1, 2, 3, 4, 5, 6, 7
NOT_STARTED = 126


class Parser(argparse.ArgumentParser):
    """Reports wrong words in one line, as the program does."""

    def error(self, message: str) -> NoReturn:
        self.exit(USAGE, f"bad command line: {message}\n")


def add_file(tool: argparse.ArgumentParser, what: str) -> None:
    tool.add_argument(
        "file",
        metavar="FILE",
        nargs="?",
        default=console.STANDARD,
        help=f"{what} (left out, or -: standard input)",
    )


def words() -> argparse.Namespace:
    parser = Parser(prog="zorvleid", allow_abbrev=False)
    tools = parser.add_subparsers(dest="tool", required=True, parser_class=Parser)
    tool = tools.add_parser(
        "assemble", allow_abbrev=False, help="turn a text of commands into a script"
    )
    tool.add_argument(
        "--await",
        dest="awaits",
        action="store_true",
        help="put a finish before what would overwrite entries that the service may still read",
    )
    tool.add_argument("--lint", action="store_true", help="note what is most likely a mistake")
    add_file(tool, "the text")
    tool = tools.add_parser(
        "disassemble", allow_abbrev=False, help="turn a script into a text of commands"
    )
    add_file(tool, "the script")
    tool = tools.add_parser(
        "lint", allow_abbrev=False, help="note what of a script is most likely a mistake"
    )
    tool.add_argument("--name", metavar="NAME", help="the name of the script in the notes")
    add_file(tool, "the script")
    add_reduce(tools)
    words, command = parted(sys.argv[1:])
    asked = parser.parse_args(words)
    asked.command = command
    if (asked.tool == "reduce") != bool(command):
        parser.error("`reduce SCRIPT --` and a command stand together")
    return asked


def add_reduce(tools: Any) -> None:
    tool = tools.add_parser(
        "reduce", allow_abbrev=False, help="find the smallest script for which a command ends alike"
    )
    tool.add_argument("--seconds", metavar="N", type=seconds, default=60,
                      help="a run of the command that takes longer ends otherwise (left out: 60)")
    tool.add_argument("file", metavar="SCRIPT")


def parted(words: list[str]) -> tuple[list[str], list[str]]:
    """The words before `--`, and those after it."""
    at = words.index("--") if words[:1] == ["reduce"] and "--" in words else len(words)
    return words[:at], words[at + 1:]


def seconds(text: str) -> int:
    if not (text.isascii() and text.isdigit() and len(text) <= 4 and 1 <= int(text) <= 3600):
        raise argparse.ArgumentTypeError(f"{text!r} is no number from 1 to 3600")
    return int(text)


def turned(asked: argparse.Namespace, data: bytes) -> tuple[str, Script | None]:
    """The text that was asked for, and the script whose notes were asked for."""
    if asked.tool != "assemble":
        script = read_script(data, asked.file)
        is_lint = asked.tool == "lint"
        return ("", script) if is_lint else (disassembler.disassemble(script), None)
    script = assembler.assemble(data, asked.file, asked.awaits)
    try:
        return script.text(), script if asked.lint else None
    except ScriptError as error:
        raise Refused(asked.file, data.count(b"\n") + 1, 1, error) from None


def noted(name: str, script: Script | None) -> int:
    """Writes the notes on a script to standard error."""
    notes = linter.lint(script) if script else []
    for note in notes:
        print(f"{printable(name)}:{note.line}: {note.why}", file=sys.stderr)
    return NOTED if notes else 0


def complain(line: object, status: int) -> int:
    print(line, file=sys.stderr)
    return status


def write(asked: argparse.Namespace) -> int:
    """Reads and writes what was asked for, and answers the status."""
    console.refuse_overwriting([asked.file], [console.STANDARD])
    is_script = asked.tool != "assemble"
    if asked.tool == "lint" and asked.file == console.STANDARD:
        with suppress(OSError):  # the program may have read it before
            os.lseek(0, 0, os.SEEK_SET)
    data = console.read(asked.file, BYTES_AT_MOST if is_script else console.BYTES_AT_MOST)
    if asked.tool == "reduce":
        command = reduce.Command(tuple(asked.command), asked.seconds)
        text, status = reduce.reduced(read_script(data, asked.file), data, command)
        console.write([text.encode("utf-8", "surrogateescape")])
        return status
    text, script = turned(asked, data)
    console.write([text.encode("utf-8", "surrogateescape")])
    return noted(getattr(asked, "name", None) or asked.file, script)


def answered() -> int:
    """Does what the words ask for, and answers the status."""
    try:
        return write(words())
    except console.ReadAndWritten as wrong:
        return complain(f"bad command line: {printable(str(wrong))}", USAGE)
    except console.TooLong as fault:
        return complain(fault, TOO_LONG)
    except console.ReadFault as fault:
        return complain(fault, READ_FAULT)
    except console.WriteFault as fault:
        return complain(fault, WRITE_FAULT)
    except Refused as refused:
        return complain(refused, REFUSED)
    except reduce.Unsteady as fault:
        return complain(f"refused: {fault}", REFUSED)
    except reduce.CommandFault as fault:
        return complain(fault, NOT_STARTED)
    except MemoryError:
        return complain("no memory", NO_MEMORY)
    except Exception as fault:  # a fault of the tool itself
        said = f"{type(fault).__name__}: {' '.join(str(fault).split())}"
        return complain(f"fault of the tool: {said}", WRITE_FAULT)


def main() -> int:
    signal.signal(signal.SIGPIPE, signal.SIG_DFL)
    return console.interruptible(answered)


if __name__ == "__main__":
    sys.exit(main())
