"""Checks that tables and names of the documents agree with the sources.

In docs/FORMATS.md they are the commands, the statuses, the checks and the rules; in docs/TESTS.md
the names of tests; in README.md the toolchain; and the version everywhere. A worked case has the
script of an example. The shell script knows each command that the program answers. The part also
counts what docs/DEFINITIONS.md calls half an hour.
"""

import re
import shutil
import subprocess
from collections.abc import Iterator
from pathlib import Path

from command_line.table import COMMANDS
from tools.checks import prose
from tools.checks.tally import Tally

FORMATS, TESTS, DEFINITIONS = (
    Path("docs/FORMATS.md"),
    Path("docs/TESTS.md"),
    Path("docs/DEFINITIONS.md"),
)
TABLE = Path("crates/gpu_cmd/specs/Table.antt")
STATUSES = Path("crates/script_answers/specs/Statuses.antt")
LEGAL = Path("crates/gpu_journal/specs/Legal.antt")
WORKED = Path("crates/race_laws/proofs/worked/CrossedWaits.antt")
EXAMPLE = Path("examples/crossed_waits.script")
MINUTES, WORDS_A_MINUTE = 30, 130
BEGIN = "\n## What you must believe\n"  # where the reading of half an hour begins
SIZE_BITS = 21

COMMAND = re.compile(
    r"^\| (\d+) \| (\w+) \| (\d+)( or more)? \|[^\n]*\| ([0-9a-f]{8}) \|$", re.MULTILINE
)
ROW = re.compile(r"^ +(?:∷ )?(exactly|at_least) (\d+) (\d+) \(λ a\. (\w+)", re.MULTILINE)
STATUS = re.compile(r"^\| (\w+) \| (\d+) \|", re.MULTILINE)
CODE = re.compile(r"^status_code \(?status\.(\w+)[^=]*= (\d+)$", re.MULTILINE)
RULE = re.compile(r"^  pub rule_(\d+) :", re.MULTILINE)
CHECK = re.compile(r"^\| (\d+) \| [^|]+ \| \w+ \|$", re.MULTILINE)
TEST = re.compile(r"`([a-z]+(?:_[a-z0-9]+)+|race)`")
BOLD = re.compile(r"\*\*\[\w+\.antt\]\(\.\./([\w/.]+)\)\*\*")
CODES = re.compile(r'codes "([^"]*)"')
VERSION = re.compile(r"\d+\.\d+\.\d+")
SHELL = Path("zorvleid")
ANSWERED = re.compile(r"^case \$\{1-\} in\n([a-z |]+)\) ;;$", re.MULTILINE)


def text_of(top: Path, path: Path | str) -> str:
    """The text of a file of the repository."""
    return (top / path).read_text(encoding="utf-8")


def part_of(text: str, title: str) -> str:
    """The text below a heading of the second level."""
    return text.partition(f"\n## {title}\n")[2].partition("\n## ")[0]


def commands(top: Path) -> Iterator[tuple[str, str | None]]:
    """Each command of the page or of the table, with what differs."""
    page = {
        int(id): (name, int(size), bool(more), int(header, 16))
        for id, name, size, more, header in COMMAND.findall(text_of(top, FORMATS))
    }
    table = {
        int(id): (name, int(size), kind == "at_least", int(id) << SIZE_BITS | int(size))
        for kind, id, size, name in ROW.findall(text_of(top, TABLE))
    }
    for id in sorted(page.keys() | table.keys()):
        wanted = table.get(id)
        yield f"command {id}", None if page.get(
            id
        ) == wanted else f"the page has {page.get(id)}, and the table {wanted}"


def statuses(top: Path) -> Iterator[tuple[str, str | None]]:
    """Each status of the page or of the definition, with what differs."""
    page = dict(STATUS.findall(part_of(text_of(top, FORMATS), "The command line")))
    codes = dict(CODE.findall(text_of(top, STATUSES)))
    for name in sorted(page.keys() | codes.keys()):
        same = page.get(name) == codes.get(name)
        fault = f"the page has {page.get(name)}, and the definition {codes.get(name)}"
        yield f"status {name}", None if same else fault


def counts(top: Path) -> Iterator[tuple[str, str | None]]:
    """The numbers of the checks and of the rules, which go up by one."""
    formats = text_of(top, FORMATS)
    checks = CHECK.findall(part_of(formats, "Checks"))
    yield "the checks", None if checks == [
        str(number) for number in range(1, len(checks) + 1)
    ] else f"they are {checks}"
    page = re.findall(r"^\| (\d+) \|", part_of(formats, "The input of `verify`"), re.MULTILINE)
    yield "the rules", None if page == RULE.findall(text_of(top, LEGAL)) else f"they are {page}"


def tests(top: Path) -> Iterator[tuple[str, str | None]]:
    """Each name of a test that the page has."""
    sources = "\n".join(
        path.read_text(encoding="utf-8") for path in top.glob("crates/*/src/**/*.rt")
    )
    crates = {path.name for path in (top / "crates").iterdir()}
    names = set(TEST.findall(text_of(top, TESTS))) - crates
    for name in sorted(names):
        yield f"test {name}", None if re.search(
            rf"\bfn {name}\b", sources
        ) else "no crate has a function of this name"


def versions(top: Path) -> Iterator[tuple[str, str | None]]:
    """The version, wherever it stands."""
    ran = subprocess.run(
        [top / "zorvleid", "--version"], capture_output=True, text=True, check=False
    )
    wanted = (VERSION.findall(ran.stdout) or ["none"])[0]
    changes = re.findall(r"^## (\S+)", text_of(top, "CHANGELOG.md"), re.MULTILINE)
    released = set(
        re.findall(rf"(?:zorvleid-|`v)({VERSION.pattern})", text_of(top, "docs/RELEASES.md"))
    )
    first = next((name for name in changes if VERSION.fullmatch(name)), "none")
    says = f"and --version says {wanted}"
    yield "the version of CHANGELOG.md", None if first == wanted else f"it is {first}, {says}"
    is_so = released == {wanted}
    yield "the version of docs/RELEASES.md", None if is_so else f"it is {released}, {says}"


def shell_words(top: Path) -> Iterator[tuple[str, str | None]]:
    """The commands that the shell script gives to the program: those that no tool answers."""
    lines = ANSWERED.findall(text_of(top, SHELL))
    words = set(lines[0].split(" | ")) if len(lines) == 1 else set()
    wanted = {name for name, command in COMMANDS.items() if not command.tool}
    for name in sorted(words ^ wanted):
        yield f"command {name}", "only one of the script and the table of commands has it"
    yield "commands of the program", None if words == wanted else f"they are {sorted(words)}"


def half_hour(top: Path) -> Iterator[tuple[str, str | None]]:
    """How long the page of the definitions is from BEGIN on, with the files in bold."""
    _, begin, page = text_of(top, DEFINITIONS).partition(BEGIN)
    yield f"{BEGIN!r} in {DEFINITIONS}", None if begin else "it does not stand there"
    texts = [text_of(top, path) for path in BOLD.findall(page)]
    sentences = [
        line.strip()[2:]
        for text in texts
        for line in text.split("\n")
        if line.lstrip().startswith("-- ")
    ]
    words = prose.count(prose.plain(page)) + sum(map(prose.count, sentences))
    is_so = texts and words <= MINUTES * WORDS_A_MINUTE
    yield "half an hour", None if is_so else f"{words} words take above {MINUTES} minutes aloud"


def worked(top: Path) -> Iterator[tuple[str, str | None]]:
    """The script of a worked case, and what every run prints of it: an example has both."""
    texts = [text.replace("\\n", "\n") for text in CODES.findall(text_of(top, WORKED))]
    wanted = text_of(top, EXAMPLE)
    yield "its script", None if texts[:1] == [wanted] else f"it is not that of {EXAMPLE}"
    printed = text_of(top, EXAMPLE.with_suffix(".stdout"))
    is_so = len(texts) == 2 and texts[1] and f"\n{texts[1]}" in printed
    yield "what is printed", None if is_so else f"it is not in the output of {EXAMPLE}"


def check_toolchain(top: Path, tally: Tally) -> None:
    """The logic that README.md names is that of the toolchain here.

    Kits of other names may have the same one.
    """
    if shutil.which("rt") is None:
        tally.skip("the toolchain of README.md", "rt is missing")
        return
    said = subprocess.run(
        ["rt", "version"], capture_output=True, text=True, check=False
    ).stdout.strip()
    logic = said.partition(" ")[2]
    same = logic and f"`{logic}`" in text_of(top, "README.md")
    tally.tell("README.md: the toolchain", None if same else f"rt version says '{said}'")


def check(top: Path, _program: Path, tally: Tally) -> None:
    """Reports each name and each row of the documents that does not agree with the sources."""
    for where, items in (
        (FORMATS, commands(top)),
        (FORMATS, statuses(top)),
        (FORMATS, counts(top)),
        (TESTS, tests(top)),
        ("documents", versions(top)),
        (SHELL, shell_words(top)),
        (DEFINITIONS, half_hour(top)),
        (WORKED, worked(top)),
    ):
        for name, fault in items:
            tally.tell(f"{where}: {name}", fault)
    check_toolchain(top, tally)
