"""README.md for somebody who never met a command buffer, and examples/README.md.

- The first paragraph is the problem, in some sentences with the words of WORDS. The commands before
  the first heading work in a tree with no program and no toolchain.
- Each use has a command. The first run has an item for each line that it explains.
- What is proved is short, with one link to where it is said in full.
- The examples come before what teaches to write and record some.
"""

import re
import tempfile
from pathlib import Path

from tools.checks import prose
from tools.checks.command_lines import Tree
from tools.checks.tally import Tally

WORDS = ("memory", "GPU service", "flush", "sync token", "hostile")
PROBLEM, PROVED = 4, 5  # sentences
EXPLAINED = ("stream 1 normal 16", "put 0", "flush 11", "order 1 1 11", "step", "stream 1 done")
COMMAND = re.compile(r"^ {4,}(\S.*)$", re.MULTILINE)
TEACHING = ("Write one yourself",)


def sections(text: str) -> dict[str, str]:
    """The parts of a document by their headings of the second level; the first has none."""
    pieces = re.split(r"^## (.*)$", prose.FENCE.sub("", text), flags=re.MULTILINE)
    return {"": pieces[0], **dict(zip(pieces[1::2], pieces[2::2]))}


def check(top: Path, _program: Path, tally: Tally) -> None:
    """Reports what the two pages lack."""
    parts = sections((top / "README.md").read_text(encoding="utf-8"))
    problem = parts[""].split("\n\n")[1]
    missing = [word for word in WORDS if word not in " ".join(problem.split())]
    tally.tell("README.md, the problem", f"it does not say {missing}" if missing else None)
    tell_count(tally, "the sentences of the problem", prose.sentences_of(problem), PROBLEM)
    check_commands(top, COMMAND.findall(parts[""]), tally)
    uses = COMMAND.findall(parts.get("What it is good for", ""))
    fault = None if len(uses) == len(prose.USERS) else f"{len(prose.USERS)} uses, and {uses}"
    tally.tell("README.md, a command for each use", fault)
    items = re.findall(r"^- `([^`]*)`", parts.get("A first run", ""), re.MULTILINE)
    for line in EXPLAINED:
        is_so = any(item.startswith(line) for item in items)
        tally.tell(f"README.md, what `{line}` says", None if is_so else "it does not say it")
    proved = parts.get("What is proved", "").strip()
    tell_count(tally, "the sentences of what is proved", prose.sentences_of(proved), PROVED)
    tell_count(tally, "the links of what is proved", re.findall(r"\]\(", proved), 1)
    names = list(sections((top / "examples/README.md").read_text(encoding="utf-8")))
    examples = {path.stem for path in (top / "examples").glob("*.script")}
    first = min((names.index(one) for one in TEACHING if one in names), default=0)
    late = sorted(examples - set(names[:first]))
    tally.tell("examples/README.md, what comes first",
               f"{late} do not come before {TEACHING}" if late else None)


def tell_count(tally: Tally, what: str, found: list[str], most: int) -> None:
    """Reports a fault unless there is at least one, and at most this many."""
    is_so = 0 < len(found) <= most
    tally.tell(f"README.md, {what}", None if is_so else f"{len(found)} are not 1 to {most}")


def check_commands(top: Path, lines: list[str], tally: Tally) -> None:
    """Reports each command that does not work where nothing is built."""
    tally.tell("README.md, its first commands", None if lines else "there is none")
    with tempfile.TemporaryDirectory() as folder:
        tree = Tree(top, Path(folder))
        for line in lines:
            ran = tree.shell(line)
            is_so = (ran.status, ran.said) == (0, "")
            tally.tell(f"README.md, with nothing built: {line}", None if is_so else str(ran))
