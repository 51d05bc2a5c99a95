"""Sees that the numbers of the documents are those of the sources.

A number of ten or more needs a fact: the words around it, with `#` for the number, and where the
sources have it. A smaller number is looked up only if a fact fits, and so is one within code or in
examples/README.md, whose numbers belong to its scripts. Headings, table cells and sentences count
alike. Left out are versions, powers such as 2^32, and the widths of machine words.
"""

import math
import re
from collections.abc import Callable, Iterator
from dataclasses import dataclass
from pathlib import Path

from tools.checks import prose
from tools.checks.tally import Tally

Source = Callable[[Path], int]

AROUND = 48
FREE = 10
OF_SCRIPTS = ("examples/README.md",)
NUMBER = re.compile(r"(?<![\w.,^:-])(?:0x)?\d+(?:,\d{3})*(?![\w.,^:-]*\w|\^)")
SPELLED = (
    "zero one two three four five six seven eight nine ten eleven twelve thirteen fourteen "
    "fifteen sixteen seventeen eighteen nineteen twenty"
).split()
WORD = re.compile(rf"\b(?:{'|'.join(SPELLED)})\b", re.IGNORECASE)


@dataclass(frozen=True)
class Fact:
    """Words around a number, and where the sources have it; `above` is added to what they have."""

    words: str
    source: Source
    above: int = 0

    def value(self, top: Path) -> int:
        """The number that the sources have."""
        return self.source(top) + self.above


def found(path: str, pattern: str) -> Source:
    """The number that stands first in a file where a pattern fits."""

    def source(top: Path) -> int:
        match = re.search(pattern, (top / path).read_text(encoding="utf-8"), re.MULTILINE)
        return int(re.sub(r"[,_]", "", match[1])) if match else -1

    return source


def fixed(number: int) -> Source:
    """The same number everywhere."""
    return lambda _: number


def constant(path: str, name: str) -> Source:
    """The value of a constant of a source file of the crates."""
    return found(f"crates/{path}", rf"\bconst {name}: \w+ = ([\d_]+);")


def counted(path: str, pattern: str) -> Source:
    """How often a pattern fits in a file."""
    return lambda top: len(
        re.findall(pattern, (top / path).read_text(encoding="utf-8"), re.MULTILINE)
    )


def product(*sources: Source) -> Source:
    """The product of some numbers."""
    return lambda top: math.prod(source(top) for source in sources)


def files(pattern: str, without: tuple[str, ...] = ()) -> Source:
    """How many files there are of a pattern, without those of these names."""
    return lambda top: sum(path.name not in without for path in top.glob(pattern))


def fields(path: str, record: str) -> Source:
    """How many fields a record of a definition has."""

    def source(top: Path) -> int:
        text = (top / path).read_text(encoding="utf-8")
        body = re.search(rf"^pub record {record} .*?\n((?: .*\n|\n)+)", text, re.MULTILINE)
        return len(re.findall(r"^  pub \w+ :", body[1], re.MULTILINE)) if body else -1

    return source


def spare_entries(top: Path) -> int:
    """How many entries of waits the lines keep beside those that grow with the slots.

    A line is made anew after three times FEW waits, each of which has two entries.
    """
    return 2 * 3 * constant("sync_core/src/queues.rt", "FEW")(top)


def most_wrong_bodies(top: Path) -> int:
    """How many wrong bodies the crate has that has most."""
    return max(len(list(folder.glob("*.edit"))) for folder in top.glob("crates/*/must-fail"))


MOST_BYTES = constant("gpu_plan/src/script.rt", "MOST_BYTES")
MOST_WHOLE_BYTES = constant("verify_input/src/rest.rt", "MOST_WHOLE_BYTES")
MOST_OF_TOOLS = found("python/zorvleid/console.py", r"^BYTES_AT_MOST = ([\d_]+)")
MOST_RING = constant("gpu_cmd/src/areas.rt", "MOST_RING")
MOST_WORDS = constant("gpu_cmd/src/areas.rt", "MOST_WORDS")
MOST_FETCHED = constant("gpu_cmd/src/facts.rt", "MOST_FETCHED")
MOST_BLOCK = constant("gpu_cmd/src/checks.rt", "MOST_SLOT_BYTES")
SLOTS = constant("gpu_cmd/src/checks.rt", "SLOTS")
MOST_STREAMS = constant("gpu_plan/src/adding.rt", "MOST_STREAMS")
MOST_ACTIONS = constant("gpu_plan/src/acting.rt", "MOST_ACTIONS")
MOST_FLUSHES = constant("gpu_plan/src/acting.rt", "MOST_FLUSHES")
MOST_FENCES = constant("gpu_plan/src/acting.rt", "MOST_FENCES")
MOST_SIDE = constant("gpu_store/src/canvas.rt", "MOST_SIDE")
MOST_TEXELS = constant("gpu_store/src/images.rt", "MOST_TEXELS")
MOST_NOTES = constant("flush_queue/src/queue.rt", "MOST_NOTES")
MOST_SIZE = constant("script_generator/src/script.rt", "MOST_SIZE")
MOST_WORKERS = constant("script_answers/src/command.rt", "MOST_WORKERS")
MOST_VIEWERS = constant("live_view/src/making.rt", "MOST_VIEWERS")
ALL_LOOKS = constant("live_view/src/look.rt", "ALL_LOOKS")
SIZE_BITS = constant("gpu_word/src/header.rt", "SIZE_BITS")
ID_BITS = constant("gpu_word/src/header.rt", "ID_BITS")
CLAUSES = counted("crates/script_main/src/program.rt", r"^    ensures ")
RULES = counted("crates/gpu_journal/specs/Legal.antt", r"^  pub rule_\d+ :")
CHECKS = counted(
    "docs/FORMATS.md",
    r"^\| \d+ \| [^|]+ \| (?:InvalidSize|OutOfBounds|UnknownCommand|InvalidArguments|Quota) \|$",
)
DRAWS = "crates/script_generator/specs/Draws.antt"
GENERATOR = "crates/script_generator/specs/Generator.antt"
NUMBERS = "crates/script_lines/specs/Numbers.antt"

# The rows of the table of the longest output: what they count, how many there are at most, and how
# wide. Four words of a step may make a wait.
WAIT = "mark 16 100000 16 18446744073709551615 release 4294967295\n"
STREAM = "stream 16 lost memory entries 4294967295 release 18446744073709551615 token 4294967295 "
LONGEST = (
    ("words of steps", product(MOST_STREAMS, MOST_FETCHED),
     -(-len("step 16" + 4 * " 4095:ffffffff" + "\n" + WAIT) // 4)),
    ("words of losses", lambda top: MOST_STREAMS(top) * (MOST_RING(top) + MOST_WORDS(top)),
     len(" 69631:ffffffff")),
    ("orders and finishes", MOST_FLUSHES, len("order 16 100000 999999\nfinish 16 100000\n")),
    ("texels", MOST_TEXELS, len("ffffffff ")),
    ("waits of fences", product(MOST_FENCES, MOST_FLUSHES), len(WAIT)),
    ("dumps", MOST_ACTIONS, len("dump 16 999999 65535 ffffffff\n")),
)


def other_lines(top: Path) -> int:
    """The bytes of names, losses without their words, streams and views, where they are most."""
    of_stream = ("name 16 255 18446744073709551615\n", "lost 16 memory\n",
                 STREAM + "words 1048576 errors 1048576 1048576 1048576\n")
    return (len("gpu-journal 2\n") + MOST_STREAMS(top) * sum(map(len, of_stream))
            + MOST_VIEWERS(top) * ALL_LOOKS(top) * len("view 4 409800016 ffffffff\n"))


def longest_output() -> Iterator[Fact]:
    """The numbers of that table, and of the sentence before it."""
    for row, count, width in LONGEST:
        yield Fact(rf"\| {row} \| #", count)
        yield Fact(rf"\| {row} \| [\d,]+ of #", fixed(width))
        yield Fact(rf"\| {row} \| [\d,]+ of \d+ bytes \| #", product(count, fixed(width)))
    yield Fact(r"all others \| \| #", other_lines)
    yield Fact(r"No output has more than #", lambda top: other_lines(top) + sum(
        count(top) * width for _, count, width in LONGEST))
    yield Fact(r"of one word, # steps", LONGEST[0][1])
    yield Fact(r"steps have # bytes", lambda _: len("step 1 0:ffffffff\n"))


FACTS = (
    Fact(r"# bytes (?:were|was) read|bytes of an input \| #|has at most # bytes", MOST_BYTES),
    Fact(r"it has more than # bytes", MOST_BYTES),
    Fact(r"ends silently with #|output any more, .* the status is #",
         found("zorvleid", r"is_unread \|\| exit (\d+)")),
    Fact(r"output with its script (?:\| |may have )?#|have at most # bytes together",
         MOST_WHOLE_BYTES),
    Fact(r"or the input of may have # bytes|out has more than # bytes", MOST_OF_TOOLS),
    *longest_output(),
    Fact(r"RING is not # to", constant("gpu_cmd/src/areas.rt", "LEAST_RING")),
    Fact(r"RING is not \d+ to #|entries of a ring \| #", MOST_RING),
    Fact(r"# words of one sort|at most # words together|memories of one sort \| #", MOST_WORDS),
    Fact(r"fetched words past #|fetched for a stream \| #", MOST_FETCHED),
    Fact(r"more than # bytes \| Invalid|bytes of a bucket or buffer \| #", MOST_BLOCK),
    Fact(r"bucket or buffer is above #", SLOTS, -1),
    Fact(r"buffers are # optional", SLOTS),
    Fact(
        r"(?:more than|at most) # streams|streams of a script \| #|are # streams at most",
        MOST_STREAMS,
    ),
    Fact(
        r"namespaces are at most #|NS of a stream is above #",
        constant("gpu_plan/src/adding.rt", "LAST_NAMESPACE"),
    ),
    Fact(r"M of a declaration is above #", constant("gpu_plan/src/spans.rt", "LAST_MEMORY")),
    Fact(r"(?:more than|at most) # actions|actions of a script \| #", MOST_ACTIONS),
    Fact(
        r"(?:actions or|at most) # flushes|flushes of a script \| #|at most # numbers", MOST_FLUSHES
    ),
    Fact(r"(?:more than|at most) # fences|fences of a flush \| #", MOST_FENCES),
    Fact(r"side is 0 or above #|side of an image, in texels \| #", MOST_SIDE),
    Fact(r"more than # texels|texels of all images \| #", MOST_TEXELS),
    Fact(r"\b(?:to|\|) # workers|workers \| #|with N workers, from 1 to #", MOST_WORKERS),
    Fact(r"\b(?:to|\|) # viewers|viewers \| #|with V viewers, from 1 to #", MOST_VIEWERS),
    Fact(
        r"only while # (?:notes )?wait|are # notes in it|after # posts|[Tt]hat # notes wait"
        r"|(?:that|take;) # flushes were posted"
        r"|queue has # places",
        MOST_NOTES,
    ),
    Fact(r"and on # events", found("tools/checks/answers.py", r"^MANY, \w+ = ([\d_]+),")),
    Fact(r"scripts of above # lines", found("tools/checks/reducing.py", r"^LEAST, \w+ = (\d+),")),
    Fact(r"bring each below #", found("tools/checks/reducing.py", r"^LEAST, \w+ = \d+, (\d+)")),
    Fact(r"hands # flushes", constant("part_tests/src/tests/posting.rt", "FLUSHES")),
    Fact(r"room for # words from the first", constant("gpu_fetch/src/fetch.rt", "USUAL_ENTRIES")),
    Fact(r"up to # commands", constant("gpu_house/src/batch.rt", "MOST_MEMBERS")),
    Fact(r"viewer has # looks|the # lines of each|viewers, # lines for each", ALL_LOOKS),
    Fact(r"each looks # times", constant("live_view/src/look.rt", "LOOKS")),
    Fact(
        r"before # bytes are gathered|once it has # bytes",
        constant("run_output/src/page.rt", "PIECE_BYTES"),
    ),
    Fact(r"size up to #|that SIZE, from 1 to #", MOST_SIZE),
    Fact(r"marks over the base #|answered: #", constant("script_main/src/main.rt", "BASE")),
    Fact(r"the same # clauses", CLAUSES),
    Fact(r"whose # fields", fields("crates/script_answers/specs/Conducts.antt", "Conducts")),
    Fact(r"times the slots, and # more", spare_entries),
    Fact(r"[Rr]ules? (?:\d+ (?:to|and) )#|# rules", RULES),
    Fact(r"checks \d+ (?:to|and) #|check #,|checks # and|[Cc]hecks 1 to #", CHECKS),
    Fact(r"low # bits", SIZE_BITS),
    Fact(r"id in the other #", ID_BITS),
    Fact(
        r"history has at most # events|events of a run: at most #",
        found("crates/serial_laws/specs/Laws.antt", r"most_events p ≤ (\d+)"),
    ),
    Fact(
        r"legal history have at most # words",
        found("crates/script_answers/specs/Laws.antt", r"event_words e\)\) h ≤ (\d+)"),
    ),
    Fact(
        r"block of # values|BASE and PUT are #|and # for even",
        found(GENERATOR, r"base_of round = (\d+)"),
    ),
    Fact(r"sets x to # x", found(DRAWS, r"\((\d+) \* state")),
    Fact(r"x \+ # modulo", found(DRAWS, r"state \+ (\d+)\)")),
    Fact(r"gives x / #", found(DRAWS, r"draw / (\d+)")),
    Fact(r"small draws below #", found(GENERATOR, r"below (16)")),
    Fact(r"\| number \| 1 to #", found(NUMBERS, r"^decimal_of word = number_said 10 (\d+)")),
    Fact(r"long number \| 1 to #", found(NUMBERS, r"^long_decimal_of word = number_said 10 (\d+)")),
    Fact(
        r"alpha is #|becomes c\s+# /", found("crates/gpu_store/specs/Conversion.antt", r"\b(255)\b")
    ),
    Fact(
        r"# theorems in",
        files(
            "crates/script_laws/proofs/worked/*.antt",
            ("Applied.antt", "Said.antt", "MayBeTold.antt", "ClosesWaiting.antt"),
        ),
    ),
    Fact(r"# examples$", files("examples/*.script")),
    Fact(r"at most # wrong bodies", most_wrong_bodies),
)
AT_MOST = (RULES, CHECKS)

# What agreeing.py compares in the rows of some tables: commands, statuses, checks and rules.
ROWS = re.compile(
    r"^\| \d+ \| [A-Z]\w+ \| \d+ [^\n]* \| [0-9a-f]{8} \|$"  # a command
    r"|^\| [A-Z]\w+ \| \d+ \|"  # a status
    r"|^\| \d+ \|(?=[^\n]*\|$)",  # a check or a rule
    re.MULTILINE,
)
WIDTHS = re.compile(r"# (?:decimal |hexadecimal )?bits")
IMAGE_ERRORS = re.compile(r"\b050[125]\b")


def value_of(text: str) -> int:
    """The number that digits or a word say."""
    lower = text.lower()
    return SPELLED.index(lower) if lower in SPELLED else int(lower.replace(",", ""))


def numbers_in(text: str) -> Iterator[tuple[str, str]]:
    """Each number of a text, and the words around it, with `#` for the number."""
    for line in ROWS.sub("|", text).split("\n"):
        for match in sorted(
            (*NUMBER.finditer(line), *WORD.finditer(line)), key=lambda it: it.start()
        ):
            before, after = (
                line[max(0, match.start() - AROUND) : match.start()],
                line[match.end() : match.end() + AROUND],
            )
            yield match[0], re.sub(
                r"[*`]|\s+", lambda it: " " if it[0].isspace() else "", f"{before}#{after}"
            )


def code_of(text: str) -> str:
    """The lines of a document that are code: those within fences, and those that are set in."""
    fenced = [match[0] for match in prose.FENCE.finditer(text)]
    return "\n".join([*fenced, *(line for line in text.split("\n") if line.startswith("    "))])


def fault(top: Path, number: str, around: str, needs_fact: bool) -> str | None:
    """The fault of a number."""
    value, where = value_of(number), around.strip()
    fact = next((fact for fact in FACTS if re.search(fact.words.replace("#", r"\#"), around)), None)
    if fact is not None:
        wanted = fact.value(top)
        fits = 0 < value <= wanted if fact.source in AT_MOST else value == wanted
        return None if fits else f"{number} stands in '{where}', and the sources have {wanted}"
    is_width = value in (16, 32, 64, 128) and WIDTHS.search(around)
    if value < FREE or is_width or IMAGE_ERRORS.fullmatch(number) or not needs_fact:
        return None
    return f"no fact of tools/checks/figures.py says where '{where}' comes from"


def check(top: Path, _program: Path, tally: Tally) -> None:
    """Reports the numbers of each document and each crate's head that the sources do not have."""
    for path in prose.documents(top):
        name, text = str(path.relative_to(top)), path.read_text(encoding="utf-8")
        wrong = []
        for part, needs_fact in (
            (prose.read(text).prose, name not in OF_SCRIPTS),
            (code_of(text), False),
        ):
            for number, around in numbers_in(part):
                wrong.append((f"the number {number}", fault(top, number, around, needs_fact)))
        tally.tell_all(name, [(where, said) for where, said in wrong if said])
    for name, text in prose.heads(top):
        told = ((number, fault(top, number, around, True)) for number, around in numbers_in(text))
        tally.tell_all(
            f"the head of {name}", [(f"the number {it}", said) for it, said in told if said]
        )
