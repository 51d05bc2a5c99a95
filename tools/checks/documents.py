"""Runs the examples of the documents, and checks their links and names.

The documents are the files *.md at the top, in docs/ and in examples/. An example NAME in one of
them is made of fenced blocks: `script NAME` is standard input, `words NAME` the words (no such
block: `run`), `output NAME` the output, and `fault NAME STATUS` the status and the line on standard
error. Each relative link and each path in back quotes must exist, seen from the document or from
the top. A path in back quotes is a word with a '/' in it, or one that ends in .md or .txt; a '*' in
it stands for any name.
"""

import os
import re
from collections.abc import Iterator
from concurrent.futures import Executor, ThreadPoolExecutor
from pathlib import Path

from tools.checks import prose
from tools.checks.cases import Case, Fault, run_case
from tools.checks.tally import Tally

FENCE = re.compile(r"^(```|~~~)([^\n]*)\n(.*?)^\1[ \t]*$", re.MULTILINE | re.DOTALL)
LINK = re.compile(
    r"\]\(<?([^)>\s]+)>?(?:\s+\"[^\"]*\")?\)|^\[(?!\^)[^\]]+\]:\s*<?([^>\s]+)>?", re.MULTILINE
)
QUOTED = re.compile(r"`([^`\n]+)`")
PATH = re.compile(r"[\w.*-]*(?:/[\w.*-]+)+/?|[\w.*-]+/|[\w*-]+\.(?:md|txt)")
OUTSIDE = re.compile(r"[a-z][a-z0-9+.-]*:|#", re.IGNORECASE)

Example = dict[str, tuple[list[str], str]]  # the words and the text of each block, by its kind


def examples_of(text: str) -> dict[str, Example]:
    """The examples of a document by their names: from kinds of blocks to their words and texts."""
    examples: dict[str, Example] = {}
    for match in FENCE.finditer(text):
        info = match[2].split()
        if len(info) < 2:
            continue
        example = examples.setdefault(info[1], {})
        if info[0] in example or info[0] not in ("script", "words", "output", "fault"):
            raise Fault(f"a block `{match[2]}` is of no known kind, or stands twice")
        example[info[0]] = (info[2:], match[3])
    return examples


def case_of(example: Example) -> Case:
    """The case that an example is."""
    if "output" not in example and "fault" not in example:
        raise Fault("it says neither an output nor a fault")
    nothing: tuple[list[str], str] = ([], "")
    status, fault = example.get("fault", nothing)
    words = example["words"][1].split() if "words" in example else ["run"]
    script, output = (example.get(kind, nothing)[1].encode() for kind in ("script", "output"))
    return Case(words, script, int(status[0]) if status else 0, output, fault.encode())


def check_examples(
    document: str, text: str, program: Path, tally: Tally, pool: Executor
) -> None:
    """Runs the examples of a document."""
    try:
        examples = examples_of(text)
    except Fault as unlawful:
        tally.tell(document, str(unlawful))
        return

    def run_example(example: Example) -> str | None:
        try:
            return run_case(program, case_of(example))
        except Fault as fault:
            return str(fault)

    for name, fault in zip(examples, pool.map(run_example, examples.values())):
        tally.tell(f"{document}: example {name}", fault)


def named_paths(text: str) -> Iterator[str]:
    """The paths that a document names: of its links, and those in back quotes."""
    text = FENCE.sub("", text)
    for match in LINK.finditer(QUOTED.sub("", text)):
        target = match[1] or match[2]
        if not OUTSIDE.match(target):
            yield target.split("#")[0]
    for match in QUOTED.finditer(text):
        if PATH.fullmatch(match[1]):
            yield match[1]


def stands(folder: Path, path: str) -> bool:
    """Whether a path leads somewhere, seen from a folder."""
    return any(True for _ in folder.glob(path)) if "*" in path else (folder / path).exists()


def check(top: Path, program: Path, tally: Tally) -> None:
    """Reports the fault of each path and each example of the documents."""
    with ThreadPoolExecutor(os.cpu_count()) as pool:
        for document in prose.documents(top):
            name, text = str(document.relative_to(top)), document.read_text(encoding="utf-8")
            for path in sorted(set(named_paths(text))):
                found = any(stands(folder, path.lstrip("/")) for folder in (document.parent, top))
                tally.tell(f"{name}: {path}", None if found else "it does not exist")
            check_examples(name, text, program, tally, pool)
