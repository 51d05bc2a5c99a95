"""Sees that the documents read at once: how long their sentences and table cells are.

A sentence ends with a full stop, a question mark or an exclamation mark before a blank, and with
its paragraph or list item. Headings, table cells and code are no sentences. A link counts by its
text, and code within a line by its words. In SHORT, the documents that are read first, a sentence
has MEAN words on average at most. In every document a sentence has LONGEST at most, a table cell
WIDEST, and no text has a word of AVOIDED. README.md has LINES lines at most, and names each kind of
user. The heads of the crates' root files are held to the same as documents.
"""

import re
from collections.abc import Iterator
from dataclasses import dataclass
from pathlib import Path

from tools.checks.tally import Tally

SHORT = (
    "README.md",
    "docs/ARCHITECTURE.md",
    "docs/DEFINITIONS.md",
    "docs/CHANGING.md",
    "SECURITY.md",
)
HEAD = re.compile(r"(?://!(?: [^\n]*)?\n)+")  # of a source
MESSAGES = "| Why | When |"
MEAN, LONGEST, WIDEST, LINES = 18, 40, 25, 160
USERS = (
    "debug the order of GPU work",
    "judge the journal of a real service",
    "learn how sync tokens",
    "a fully proved service",
)

# What a reader stumbles over, and what to write in its place.
AVOIDED = (
    (r"behind", "after, or name what hides"),
    (r"so many", "the number, or `exactly n`"),
    (r"(?:for )?want of memory", "out of memory"),
    (r"(?:is|are|was|were) told", "say who reports it"),
    (r"there came", "the actor and the verb"),
    (r"(?:is|are|was|were) to", "must, or can"),
    (r"is no \w+ of which", "cannot, or no .. has"),
    (r"in the place of", "for, or instead of"),
    (r"what is apart", "a noun"),
    (r"that which", "what"),
    (r"has not to", "need not"),
    (r"so (?:first|last) events", "a prefix"),
)
AVOID = tuple((re.compile(rf"\b{pattern}\b", re.IGNORECASE), advice) for pattern, advice in AVOIDED)

FENCE = re.compile(r"^(```|~~~).*?^\1[ \t]*$", re.MULTILINE | re.DOTALL)
IMAGE_OR_LINK = re.compile(r"!?\[((?:[^\[\]]|\[[^\]]*\])*)\]\([^)]*\)")
CODE = re.compile(r"`([^`\n]+)`")
ITEM = re.compile(r"\s*(?:[-*+]|\d+\.)\s+")
END = re.compile(r"(?<=[.!?])[)*\"']*\s+")
WORD = re.compile(r"[^\W_]")


@dataclass(frozen=True)
class Page:
    """The prose of a document, without its code: its sentences, and the cells of its tables."""

    sentences: tuple[str, ...]
    cells: tuple[str, ...]
    prose: str

    def mean(self) -> float:
        """How many words a sentence has on average."""
        return sum(map(count, self.sentences)) / max(1, len(self.sentences))


def count(text: str) -> int:
    """How many words a text has: pieces between blanks that have a letter or a digit."""
    return sum(1 for word in text.split() if WORD.search(word))


def plain(text: str) -> str:
    """A text without its fenced blocks, with links and pictures as their texts."""
    return IMAGE_OR_LINK.sub(r"\1", FENCE.sub("\n", text))


def blocks(text: str) -> Iterator[tuple[str, str]]:
    """Each block of a document with its kind: `row`, `head`, or `text`, a paragraph or an item."""
    kept: list[str] = []
    after_blank = True
    for line in [*text.split("\n"), ""]:
        is_code = after_blank and line.startswith("    ") and not kept
        starts = not line.strip() or line.startswith(("#", "|")) or ITEM.match(line) is not None
        if (starts or is_code) and kept:
            yield "text", " ".join(kept)
            kept = []
        if line.startswith(("#", "|")):
            yield ("head" if line.startswith("#") else "row"), line
        elif line.strip() and not is_code:
            kept.append(ITEM.sub("", line, count=1) if starts else line.strip())
        after_blank = not line.strip() or is_code


def cells_of(row: str) -> list[str]:
    """The cells of a row of a table; a bar within code parts none."""
    hidden = CODE.sub(lambda code: code[0].replace("|", "/"), row.replace("\\|", "/"))
    return [cell.strip() for cell in hidden.strip().strip("|").split("|")]


def sentences_of(text: str) -> list[str]:
    """The sentences of a paragraph; a stop within code ends none."""
    hidden = CODE.sub(lambda code: re.sub(r"[.!?]", "-", code[1]), text)
    return [sentence for sentence in END.split(hidden.strip()) if count(sentence)]


def read(text: str) -> Page:
    """The prose of the text of a document."""
    parts = list(blocks(plain(text)))
    sentences = [
        sentence for kind, part in parts if kind == "text" for sentence in sentences_of(part)
    ]
    cells = list(cells_in(parts))
    return Page(tuple(sentences), tuple(cells), "\n".join(CODE.sub(" ", part) for _, part in parts))


def cells_in(parts: list[tuple[str, str]]) -> Iterator[str]:
    """The cells of all tables, but for messages of a tool, which the first column of one quotes."""
    quotes = False
    for kind, part in parts:
        quotes = kind == "row" and (quotes or part.startswith(MESSAGES))
        if kind == "row":
            yield from cells_of(part)[quotes:]


def documents(top: Path) -> list[Path]:
    """The documents of a repository."""
    folders = (top, top / "docs", top / "examples")
    return [path for folder in folders for path in sorted(folder.glob("*.md"))]


def heads(top: Path) -> Iterator[tuple[str, str]]:
    """The head of each crate's root file: what the crate is, and what its contracts say."""
    for path in sorted((top / "crates").glob("*/src/*.rt")):
        if path.name in ("lib.rt", "main.rt"):
            found = HEAD.match(path.read_text(encoding="utf-8"))
            lines = found[0].splitlines() if found else []
            yield str(path.relative_to(top)), "\n".join(line[4:] for line in lines)


def too_many(texts: list[str], most: int) -> str | None:
    """The fault of the first of the texts that have too many words."""
    return f"{count(texts[0])} words are more than {most}: {texts[0][:90]}" if texts else None


def faults(name: str, page: Page) -> Iterator[tuple[str, str | None]]:
    """The checks of a document, each with its fault or None."""
    long = [text for text in page.sentences if count(text) > LONGEST]
    yield "its sentences", too_many(long, LONGEST)
    wide = [text for text in page.cells if count(text) > WIDEST]
    yield "its table cells", too_many(wide, WIDEST)
    found = [
        (match[0], advice) for pattern, advice in AVOID for match in pattern.finditer(page.prose)
    ]
    yield "its words", f"'{found[0][0]}' stands there: write {found[0][1]}" if found else None
    if name in SHORT:
        mean = page.mean()
        yield "its mean sentence", f"{mean:.1f} words are more than {MEAN}" if mean > MEAN else None


def check(top: Path, _program: Path, tally: Tally) -> None:
    """Reports the long texts and the avoided words of each document."""
    every = documents(top)
    names = {str(path.relative_to(top)) for path in every}
    for name in SHORT:
        tally.tell(name, None if name in names else "it does not exist")
    for path in every:
        name = str(path.relative_to(top))
        for what, fault in faults(name, read(path.read_text(encoding="utf-8"))):
            tally.tell(f"{name}, {what}", fault)
    for name, text in heads(top):
        tally.tell_all(f"the head of {name}", (it for it in faults(name, read(text)) if it[1]))
    check_readme((top / "README.md").read_text(encoding="utf-8"), tally)


def check_readme(text: str, tally: Tally) -> None:
    """Reports whether README.md is short, and names each kind of user."""
    lines = len(text.splitlines())
    tally.tell("README.md, its lines", f"{lines} are more than {LINES}" if lines > LINES else None)
    whole = " ".join(text.split())
    for user in USERS:
        tally.tell(
            f"README.md, its users: {user}", None if user in whole else "it does not name them"
        )
