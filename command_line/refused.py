"""Why a script or an output is refused.

    python3 -m command_line.refused [--journal FILE] PROGRAM STATUS SAID WORD .. < INPUT

It passes on what the program said, adds a line with the wrong word and what was expected, and ends
with the status. Where lines of an output end with a carriage return, the program judges it once
more without these, by the same words. FILE is the name of the journal, where that is a file of its
own: the lines of the program count from the begin of the script.
"""

import argparse
import os
import re
import signal
import subprocess
import sys

from . import journals, scripts, texts
from .marks import Fault, printable, told

NO_JOURNAL = 11
IS_OFF = re.compile(r"no: line (\d+): \w+")
SCRIPT_LINE = re.compile(r"refused: line (\d+): (\w+)")
JOURNAL_LINE = re.compile(r"refused: journal line (\d+)")


def read() -> bytes | None:
    """The input from its beginning, which the program has read before; or None where it is gone."""
    try:
        os.lseek(0, 0, os.SEEK_SET)
        return sys.stdin.buffer.read()
    except OSError:
        return None


def lines_of(data: bytes) -> list[str]:
    """The lines of a text, each byte a character."""
    lines = data.decode("latin-1").split("\n")
    return lines if lines[-1] else lines[:-1]


def of_script(data: bytes, number: int, kind: str) -> str | None:
    """The line that says why a script is refused."""
    lines = lines_of(data)
    line = lines[number - 1] if number <= len(lines) else ""
    words = scripts.words_of(line)
    if kind != "Head":
        fault = scripts.fault_of(lines, number, kind)
        return told(words, fault) if fault else None
    return texts.of_bytes(data) or told(words, texts.of_head(words))


def of_journal(data: bytes, number: int) -> str:
    """The line that says why a journal is refused."""
    lines = lines_of(data)
    fault = journals.fault_of(lines, number)
    return told(lines[number - 1].split(" ") if number <= len(lines) else [], fault)


def why(data: bytes, said: str, command: str = "") -> str | None:
    """The line that says why a command refuses an input, where there is one."""
    if found := SCRIPT_LINE.fullmatch(said):
        number, kind = int(found[1]), found[2]
        words = scripts.words_of("".join(lines_of(data)[number - 1:number]))
        if (command, kind) == ("verify", "Word") and journals.begins(words[0]):
            return told(words, Fault(0, journals.GLUED))
        return of_script(data, number, kind)
    if found := JOURNAL_LINE.fullmatch(said):
        return of_journal(data, int(found[1]))
    return None


def place(data: bytes, said: str, journal: str | None) -> str | None:
    """The line that is meant, in a journal that is a file of its own."""
    found = JOURNAL_LINE.fullmatch(said) or IS_OFF.fullmatch(said)
    begins = [number for number, line in enumerate(lines_of(data), 1)
              if scripts.words_of(line) == ["journal"]]
    if journal is None or found is None or len(begins) != 1:
        return None
    return f"line {int(found[1]) - begins[0]} of {printable(journal)}"


def explain(asked: argparse.Namespace) -> int:
    """Says why the input is refused, and answers the status."""
    status: int = asked.status
    said: str = asked.said
    data = read()
    is_judged = status == NO_JOURNAL or IS_OFF.fullmatch(said)
    if data and is_judged and b"\r\n" in data:
        data = data.replace(b"\r\n", b"\n")
        ran = subprocess.run([asked.program, *asked.words], input=data, stderr=subprocess.PIPE,
                             check=False)
        status, said = ran.returncode, ran.stderr.decode().rstrip("\n")
    lines = [said]
    if data is not None:
        parts = (place(data, said, asked.journal), why(data, said, asked.words[0]))
        lines.append(": ".join(filter(None, parts)))
    for line in filter(None, lines):
        print(line, file=sys.stderr)
    return status


def main() -> int:
    """Ends with the status, also where a fault of this package leaves the second line out."""
    signal.signal(signal.SIGINT, signal.SIG_DFL)
    signal.pthread_sigmask(signal.SIG_UNBLOCK, (signal.SIGINT,))  # the shell script holds it back
    parser = argparse.ArgumentParser()
    parser.add_argument("--journal")
    parser.add_argument("program")
    parser.add_argument("status", type=int)
    parser.add_argument("said")
    parser.add_argument("words", nargs=argparse.REMAINDER)
    asked = parser.parse_args()
    try:
        return explain(asked)
    except Exception as fault:
        print(asked.said, file=sys.stderr)
        print(f"fault of command_line: {type(fault).__name__}: {fault}", file=sys.stderr)
        return int(asked.status)


if __name__ == "__main__":
    sys.exit(main())
