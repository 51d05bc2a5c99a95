"""What `explain` says of the cases of `verify`: the event, its rule, and a wish that is true."""

import re
import subprocess
from collections.abc import Iterator
from pathlib import Path

from tests import large
from tools.checks.tally import Tally
from view import commands, explain, rules

SAID = re.compile(r"no: event (\d+) rule (\d+)|not complete|refused: journal line (\d+)")
RULES = range(1, 13)
WORD_WANTED = re.compile(
    r"wanted: ([0-9a-f]{8}(?: or [0-9a-f]{8})*).* at place (\d+), where the event has ([0-9a-f]{8})"
)
NUMBER_WANTED = re.compile(r"wanted: the order number (\d+), which is due")

# A script that puts a word after `token T`, after a flush that sets token 5. Its journal has
# another word. The table says which words the client could have put by then.
TOKENS = """gpu-script 1
stream 1 normal 16
put 0 200002 5 1
flush 3
token {}
put 2 0
journal
order 1 1 3
step 1 0:00200002 1:00000005
step 1 2:00000007
"""
PUT_BEHIND_TOKENS = tuple(
    (TOKENS.format(token), f"{words} at place 2, where the event has 00000007")
    for token, words in ((0, "00000001 or 00000000"), (5, "00000001 or 00000000"), (6, "00000001"))
)
EARLY = (
    TOKENS.format(0)
    .replace("step 1 0:00200002 1:00000005\nstep 1 2:00000007", "step 1 0:00200002 1:00000006")
    .replace("put 2 0", "put 1 9")
)
PUT_BEHIND_TOKENS += ((EARLY, "00000005 or 00000009 at place 1, where the event has 00000006"), )


def check(top: Path, program: Path, tally: Tally) -> None:
    """Reports each rule, command and answer that is wrong."""
    formats = (top / "docs/FORMATS.md").read_text(encoding="utf-8")
    formats, _, ruling = formats.partition("| Rule | Of which events | What it says |")
    check_rules(ruling, tally)
    check_commands(formats, tally)
    kinds: dict[str, Path] = {}
    for path in sorted((top / "tests/cases").rglob("*.stderr")):
        if found := SAID.fullmatch(path.read_text().strip()):
            kinds.setdefault(found[0].split(":")[0], path.with_suffix(".script"))
            tally.tell(f"explain {path.stem}",
                       fault_of_case(path.with_suffix(".script"), found, ruling, program))
    for said, script in kinds.items():
        tally.tell(f"explain, as it is called: {said}", fault_of_call(top, program, script))
    for text, wanted in PUT_BEHIND_TOKENS:
        line = meaning(text.encode(), program)[2][-1]
        tally.tell(f"explain a word after a token: {wanted}",
                   None if line == f"wanted: {wanted}" else f"it says {line!r}")
    wrong = wrong_inputs(top)
    for name, data in wrong:
        tally.tell(f"explain {name}", fault_of_wish(data, program))
    tally.tell("explain a texel that is off", fault_of_texel(top))


def fault_of_texel(top: Path) -> str | None:
    """The fault of what is said of the one texel that is off in a case, or None."""
    data = (top / "tests/cases/whole/texel_off.script").read_bytes()
    lines = data.decode().splitlines()
    wanted = [
        "line 21 of the input is off (image):",
        f"    {lines[20]}",
        "wanted: 336699ff",
        "texel 0, 0 of image 8: 336699ff is due, and 336699fe stands there",
        "last written by event 8 of the journal, line 16 of the input:",
        f"    {lines[15]}",
        "    CopyRect: source 7, x 1, y 0, target 8, x2 0, y2 0, w 1, h 1",
    ]
    told = list(explain.meaning(9, "no: line 21: image", data))
    return None if told == wanted else f"it says {told}"


def row_of(ruling: str, rule: int | str) -> str:
    """The sentence of a rule in the document, or nothing."""
    row = re.search(rf"^\| {rule} \|[^|]*\| (.*) \|$", ruling, re.MULTILINE)
    return row[1].replace("`", "").removeprefix("the same, ") if row else ""


def check_rules(ruling: str, tally: Tally) -> None:
    """The rules are the rows of the document's table."""
    table = rules.table()
    for rule in RULES:
        wanted = row_of(ruling, rule)
        fault = (
            None
            if wanted and rule in table and table[rule][1].endswith(wanted)
            else "it is not the row of the document"
        )
        tally.tell(f"rule {rule}", fault)


def check_commands(formats: str, tally: Tally) -> None:
    """The commands are those of the document's table, with ids, least sizes and arguments."""
    rows = re.findall(
        r"^\| (\d+) \| (\w+) \| (\d+)( or more)? \| .* \| ([0-9a-f]{8}) \|$", formats, re.MULTILINE
    )
    table = {(int(number), name, int(size), bool(more)) for number, name, size, more, _ in rows}
    told = {(number, name, size, "+" in fields)
            for number, (name, size, fields) in commands.TABLE.items()}
    tally.tell("the table of commands",
               None if table == told and table else f"it differs: {sorted(table ^ told)}")
    for number, name, size, _, header in rows:
        fields = commands.TABLE.get(int(number), ("", 0, ""))[2].replace("+", "").split()
        entries = 1 + sum(1 + (field in commands.WIDE) for field in fields)
        is_so = int(header, 16) == int(number) << 21 | int(size) and entries == int(size)
        tally.tell(f"the command {name}",
                   None if is_so else "its header or its arguments are not those of the document")
    errors = dict(re.findall(r"(\w+) \(([12346])\)", formats))
    same = {code: name for name, code in errors.items()} == commands.ERRORS
    tally.tell("the names of errors", None if same else "they are not those of the document")


def meaning(data: bytes, program: Path) -> tuple[int, str, list[str]]:
    """The status of `verify`, what it says, and the lines that explain it."""
    ran = subprocess.run([program, "verify"], input=data, capture_output=True, check=False)
    said = ran.stderr.decode().strip()
    return ran.returncode, said, list(explain.meaning(ran.returncode, said, data))


def input_of(path: Path) -> bytes:
    """The input of a case, which is made where it is too large to be stored."""
    return path.read_bytes() if path.exists() else large.MAKERS[path.stem]()[0].encode()


def fault_of_case(path: Path, found: re.Match[str], ruling: str, program: Path) -> str | None:
    """The fault of the answer to a case of `verify`, or None."""
    data = input_of(path)
    status, said, lines = meaning(data, program)
    if said != found[0]:
        return f"verify says {said!r}"
    text = "\n".join(lines)
    if status == 9:
        line = re.search(r"line (\d+) of the input", text)
        event = data.split(b"\n")[int(line[1]) - 1].decode() if line else ""
        sentence, stream = row_of(ruling, found[2]), event.split(" ")[1]
        parts: tuple[str, ...] = (f"event {found[1]} of the journal", f"    {event}\n",
                                  f"stream: {stream}", sentence, "wanted: ")
    elif status == 10:
        parts = ("the journal is legal up to its end", "stream 1: ")
    else:
        parts = ("line " + found[3] if f"line {found[3]}" in text
                 else "no line whose only word is `journal`",)
    missing = [part for part in parts if part not in text]
    return f"it does not say {missing[0]!r}, but: {text}" if missing else None


def fault_of_call(top: Path, program: Path, script: Path) -> str | None:
    """The command has the status of `verify`, its line on standard error, and lines of its own."""
    data = input_of(script)
    ran = subprocess.run([top / "zorvleid", "explain", "--program", program], input=data,
                         capture_output=True, check=False)
    status, said, lines = meaning(data, program)
    wanted = (status, said + "\n", "".join(line + "\n" for line in lines))
    got = (ran.returncode, ran.stderr.decode(), ran.stdout.decode())
    return None if got == wanted else f"wanted {wanted}, got {got}"


# --- Wishes ---


def wrong_inputs(top: Path) -> Iterator[tuple[str, bytes]]:
    """Inputs of `verify` with a wrong number or word, from the examples: a name, and the input."""
    for path in sorted((top / "examples").glob("*.script")):
        script, journal = path.read_text(), path.with_suffix(".stdout").read_text()
        for at, found in enumerate(
            re.finditer(r"(?<=:)[0-9a-f]{8}|(?<=^order )(\d+) (\d+)", journal, re.MULTILINE)
        ):
            other = (
                f"{found[1]} {int(found[2]) + 3}"
                if found[1]
                else f"{int(found[0], 16) ^ 0x5050:08x}"
            )
            if at % 5 == 0:
                yield f"{path.stem}, {found[0]} as {other}", "".join(
                    (script, "journal\n", journal[: found.start()], other, journal[found.end() :])
                ).encode()


def fault_of_wish(data: bytes, program: Path) -> str | None:
    """Where a number or a word is wished for, an input that has it breaks no rule."""
    status, said, lines = meaning(data, program)
    if status != 9:
        return f"verify answers {status}: {said}"
    place = re.search(r"line (\d+) of the input", lines[0])
    line = int(place[1]) if place else 0
    text = data.decode().split("\n")
    words, wishes = text[line - 1], []
    if found := NUMBER_WANTED.fullmatch(lines[-1]):
        wishes = [" ".join([*words.split(" ")[:2], found[1], *words.split(" ")[3:]])]
    elif found := WORD_WANTED.fullmatch(lines[-1]):
        wishes = [words.replace(f" {found[2]}:{found[3]}", f" {found[2]}:{value}")
                  for value in found[1].split(" or ")]
    for text[line - 1] in wishes:
        if meaning("\n".join(text).encode(), program)[0] == 0:
            return None
    return f"{lines[-1]!r} is not enough"
