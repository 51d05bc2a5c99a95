"""Checks that the sources make no refusal of an allocation of their own.

`Memory` of gpu_word has a private field, and is neither `Clone` nor `Copy` nor `Default`. So one
comes from a refusal of the library alone: by `From`, of an `AllocError` or an `AllocFailed`, and by
`of_too_many`, which requires a count of 2^32 or more. Two words are left to look at. `AllocError`
has no private field, so a source could make one. And `usize::MAX` is a count that no list has, with
which a source could call `of_too_many`, or ask the library for what it must refuse. Each function
of the sources that uses one of them, but for tests, must be in the table with its reason, and each
function of the table must use it.
"""

import re
from collections.abc import Iterator
from pathlib import Path

from tools.checks.tally import Tally

REASONS = {
    ("live_view/absorbing.rt", "absorb_first", "AllocError"):
        "the kit names this error; the images gave a refusal",
    ("live_view/copies.rt", "hand_over", "AllocError"):
        "the kit gives an operation back where the library refused the room for it",
    ("live_view/copies.rt", "end_version", "AllocError"):
        "the kit gives an operation back where the library refused the room for it",
    ("gpu_word/memory.rt", "too_many", "usize::MAX"): "no machine holds so much",
    ("journal_verify/entering.rt", "draw", "usize::MAX"): "a lost stream, and this one is open",
    ("live_view/writer.rt", "publish", "usize::MAX"): "2^64 versions, or a second writer",
}  # fmt: skip

REMARK = re.compile(r"//[^\n]*")
FUNCTION = re.compile(r"\bfn (\w+)")
TYPE = re.compile(r"\buse [^;]*;|\bResult<.*\bAllocError>|: AllocError\b|\bFrom<AllocError>")
WORD = re.compile(r"\b(?:AllocError|usize::MAX)\b")


def uses_of(name: str, text: str) -> Iterator[tuple[str, str, str]]:
    """Each use of a word in a source: the file, the function and the word."""
    function = ""
    for line in REMARK.sub("", text).split("\n"):
        found = FUNCTION.search(line)
        function = found[1] if found else function
        for word in WORD.findall(TYPE.sub("", line)):
            if function != word:
                yield name, function, word


def uses(top: Path) -> Iterator[tuple[str, str, str]]:
    for path in sorted((top / "crates").glob("*/src/**/*.rt")):
        inner = path.relative_to(top / "crates")
        if "tests" not in inner.parts and not inner.parts[0].endswith("_tests"):
            yield from uses_of(
                inner.as_posix().replace("/src/", "/"), path.read_text(encoding="utf-8")
            )


def check(top: Path, program: Path, tally: Tally) -> None:
    found = set(uses(top))
    for name, function, word in sorted(found | set(REASONS)):
        fault = None
        if (name, function, word) not in REASONS:
            fault = f"it uses `{word}`, and tools/checks/memory.py has no reason for it"
        elif (name, function, word) not in found:
            fault = f"tools/checks/memory.py says that it uses `{word}`, and it does not"
        tally.tell(f"crates/{name}: {function}", fault)
