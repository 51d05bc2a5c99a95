"""The manual page and the help name all commands, statuses and options; mandoc warns of nothing."""

import re
import shutil
import subprocess
from pathlib import Path

from command_line.table import COMMANDS as TABLE
from tools.checks.tally import Tally

COMMANDS = (*TABLE, "--help", "--version")
OPTIONS = sorted({option.name for command in TABLE.values() for option in command.options})
STATUSES = (*range(1, 12), 126, 127)
EXAMPLE = re.compile(r"examples/\w+\.(?:script|stdout)")
SENTENCES = range(3, 7)


def check(top: Path, program: Path, tally: Tally) -> None:
    """Reports each command, option, status or example that a text leaves out."""
    page = top / "docs/zorvleid.1"
    source = page.read_text(encoding="utf-8")
    ran = subprocess.run([top / "zorvleid", "--help"], capture_output=True, text=True, check=False)
    check_text("--help", ran.stdout, "", tally)
    check_text(
        "the manual page", source.replace("Fl -", "--").replace(r"\&", ""), r"\.It (?:Cm )?", tally
    )
    check_synopsis(source, tally)
    check_status_line(top, program, tally)
    check_examples(top, tally)
    if shutil.which("mandoc") is None:
        tally.skip("the manual page, by mandoc", "mandoc is missing (apt install mandoc)")
        return
    told = subprocess.run(
        ["mandoc", "-T", "lint", "-W", "warning", page], capture_output=True, text=True, check=False
    )
    tally.tell("the manual page, by mandoc", told.stdout.strip() or None)


def check_synopsis(source: str, tally: Tally) -> None:
    """The synopsis has each command of the table, with its options and its operands."""
    part = source.partition(".Sh SYNOPSIS\n")[2].partition(".Sh DESCRIPTION\n")[0]
    for name, command in TABLE.items():
        lines = "".join(
            lines for lines in part.split(".Nm\n") if lines.startswith(f".Cm {name}\n"))
        named = [f"Fl -{option.name.lstrip('-')}" for option in command.options]
        named += [" ".join(["Ar", *(value.name for value in command.operands)])] * bool(
            command.operands and not command.may_lack)
        whole = lines.replace("| -", "| Fl -")  # of options of which one alone may stand
        lost = [words for words in named if words not in whole]
        fault = f"it lacks {lost}" if lost else None if lines else "it is not there"
        tally.tell(f"the synopsis of {name}", fault)


def check_text(name: str, text: str, before: str, tally: Tally) -> None:
    """All that a text must name; the text about a command or a status begins with it."""
    for command in COMMANDS:
        found = re.search(rf"^ *{before}(?:--help, |version, )?{command}\b", text, re.MULTILINE)
        tally.tell(f"{name}: {command}", None if found else "it is not named")
    for option in OPTIONS:
        tally.tell(f"{name}: {option}", None if option in text else "it is not named")
    for status in STATUSES:
        found = re.search(
            rf"^{before}{status}$" if before else rf"(?:^|  |, ){status} ", text, re.MULTILINE
        )
        tally.tell(f"{name}: status {status}", None if found else "it is not named")
    tally.tell(f"{name}: examples", None if len(EXAMPLE.findall(text)) >= 4 else "it has too few")


def check_status_line(top: Path, program: Path, tally: Tally) -> None:
    """Wrong words are reported in one line."""
    for words in (["timeline"], ["compare", "x"], ["log", "--json=1"], ["pictures", "--scale", "0"],
                  ["pictures", "--in", "x"],
                  ["explain", "x", "y", "z"]):
        ran = subprocess.run(
            [top / "zorvleid", *words], input=b"", capture_output=True, check=False
        )
        is_so = (
            ran.returncode == 2
            and ran.stderr.startswith(b"bad command line: ")
            and ran.stderr.count(b"\n") == 1
        )
        tally.tell(f"zorvleid {' '.join(words)}", None if is_so else str(ran))


def check_examples(top: Path, tally: Tally) -> None:
    """The page of the examples describes each of them in three to six sentences."""
    text = (top / "examples/README.md").read_text(encoding="utf-8")
    parts = dict(re.findall(r"^## (\w+)\n(.*?)(?=^## |\Z)", text, re.MULTILINE | re.DOTALL))
    names = {path.stem for path in (top / "examples").glob("*.script")}
    other = sorted(names ^ parts.keys())
    fault = f"it tells too much or not of {other}" if other else None
    tally.tell("examples/README.md", fault)
    for name, story in sorted(parts.items()):
        count = len(re.findall(r"[.?!:](?=\s)", story.split("```")[0]))
        tally.tell(f"examples/README.md: {name}",
                   None if count in SENTENCES else f"it has {count} sentences")
