"""Texts of commands: what `assemble` and `disassemble` make, and why a text is refused.

A script and its assembled text must give the same bytes, by `run` and by `check`. The scripts are
those of the examples, of tests/cases, and of 300 seeds of tests/hostile.py. Each command of the
1,000 texts of tests/command_texts.py must be executed. Each fault of tests/command_faults.tsv is
reported in its words, and every sentence of a fault has its case.
"""

import os
import re
import subprocess
from collections.abc import Callable, Iterator
from concurrent.futures import ThreadPoolExecutor
from pathlib import Path
from typing import Any

from tests import command_texts, hostile, large
from tools.checks import workers as runs
from tools.checks import wrong_calls
from tools.checks.tally import Tally
from zorvleid import (
    Refused,
    Script,
    ScriptError,
    assemble,
    disassemble,
    errors,
    read_output,
    read_script,
)
from zorvleid.script import FLUSHES_AT_MOST

FAULTS = Path("tests/command_faults.tsv")
SHORT = Path("tests/short_inputs.tsv")
FORMATS = Path("docs/FORMATS.md")
SEEDS, TEXTS = 300, 1000
SECONDS = 120
TOO_LONG = 7
REFUSED_LINE = re.compile(r"refused: line (\d+): \w+\n")
HEAD = "gpu-commands 1\nstream 1 normal 16\n"


def check(top: Path, program: Path, tally: Tally) -> None:
    """Reports each text, script or message that is wrong."""
    check_examples(top, tally)
    with ThreadPoolExecutor(os.cpu_count()) as pool:
        check_scripts(pool, program, tally, "a script and its text", stored(top))
        check_scripts(pool, program, tally, "a hostile script and its text", hostile_scripts())
        check_scripts(pool, program, tally, "a short input and its text", short_inputs(top))
        told = pool.map(
            lambda seed: (f"seed {seed}", fault_of_text(program, seed)), range(1, TEXTS + 1)
        )
        tally.tell_all("random texts of commands", ((name, fault) for name, fault in told if fault))
    check_faults(top, tally)
    check_document(top, tally)
    check_calls(top, tally)


def check_large(top: Path, program: Path, tally: Tally) -> None:
    """The same, with the cases that are too large to be stored, and long hostile scripts."""
    check(top, program, tally)
    scripts = (
        (name, maker()[0].encode())
        for name, maker in large.MAKERS.items()
        if not name.startswith("generate")
    )
    with ThreadPoolExecutor(1) as pool:
        check_scripts(pool, program, tally, "a large script and its text", scripts)
        check_scripts(
            pool,
            program,
            tally,
            "a long hostile script and its text",
            hostile_scripts(client=hostile.Client),
        )


# --- Scripts and texts ---


def check_examples(top: Path, tally: Tally) -> None:
    """An example stands as a text and as a script, which are made of each other."""
    for script in sorted((top / "examples").glob("*.script")):
        text = script.with_suffix(".commands")
        fault: str | None = f"{text.name} is missing"
        if text.exists():
            made, told = assemble(text.read_bytes(), text.name).text(), disassemble(
                read_script(script.read_bytes())
            )
            fault = runs_differ(
                f"{script.name}, assembled,", script.read_text(), made
            ) or runs_differ(f"{text.name}, disassembled,", text.read_text(), told)
        tally.tell(f"{script.stem} as commands", fault)
    for text in sorted((top / "examples").glob("*.commands")):
        tally.tell(text.name, None if text.with_suffix(".script").exists() else "it has no script")


def runs_differ(what: str, wanted: str, got: str) -> str | None:
    """How two texts differ, or None."""
    pairs = zip(wanted.split("\n"), got.split("\n"))
    line = next(
        (number for number, (want, have) in enumerate(pairs, 1) if want != have),
        len(wanted.split("\n")),
    )
    return None if wanted == got else f"{what} differs in line {line}"


def stored(top: Path) -> Iterator[tuple[str, bytes]]:
    """The scripts of the examples and of the cases; before the line `journal` alone."""
    for folder in ("examples", "tests/cases"):
        for path in sorted((top / folder).rglob("*.script")):
            yield str(path.relative_to(top)), re.split(
                rb"(?m)^[ \t\r]*journal[ \t\r]*$", path.read_bytes()
            )[0]


def hostile_scripts(count: int = SEEDS, client: Any = hostile.Brief) -> Iterator[tuple[str, bytes]]:
    """Those of the first seeds."""
    return ((f"seed {seed}", hostile.script(seed, client).encode()) for seed in range(1, count + 1))


def short_inputs(top: Path) -> Iterator[tuple[str, bytes]]:
    for number, line in enumerate((top / SHORT).read_text().splitlines()[1:], 2):
        _, words, *_, escaped = line.split("\t")
        if words != "verify":
            yield f"line {number}", escaped.encode().decode("unicode_escape").encode("latin-1")


def check_scripts(
    pool: ThreadPoolExecutor,
    program: Path,
    tally: Tally,
    name: str,
    scripts: Iterator[tuple[str, bytes]],
) -> None:
    told = pool.map(lambda item: (item[0], fault_of_script(program, item[1])), scripts)
    tally.tell_all(name, ((where, fault) for where, fault in told if fault))


def fault_of_script(program: Path, data: bytes) -> str | None:
    """How a script and what its text assembles to differ for the program, or None."""
    ran = runs.run(program, ["run"], data, SECONDS)
    if ran.status == TOO_LONG:
        return None
    try:
        script = read_script(data)
    except Refused as refused:
        found = REFUSED_LINE.fullmatch(ran.fault.decode())
        is_so = ran.status == 5 and found is not None and int(found[1]) == refused.line
        return (
            None
            if is_so
            else f"read_script refuses it by {refused}, and the program says {ran.fault!r}"
        )
    if ran.status == 5:
        return f"read_script takes it, and the program says {ran.fault!r}"
    try:
        again = assemble(disassemble(script)).text().encode("utf-8", "surrogateescape")
    except (Refused, ScriptError) as refused:
        return f"its text is refused: {refused}"
    for words in (["run"], ["check"]):
        before, after = (runs.run(program, words, each, SECONDS) for each in (data, again))
        if (before.status, before.output, before.fault) != (
            after.status,
            after.output,
            after.fault,
        ):
            return f"`{words[0]}` of what its text assembles to differs"
    return None


def fault_of_text(program: Path, seed: int) -> str | None:
    """The lost command of a random text, or None."""
    text = command_texts.text(seed)
    try:
        script = assemble(str(text), awaits=text.awaits).text().encode()
    except Refused as refused:
        return f"it is refused: {refused}"
    checked, ran = (runs.run(program, [word], script, SECONDS) for word in ("check", "run"))
    if checked.status != 0 or ran.status != 0:
        fault = checked.fault or ran.fault
        return f"the program ends with {checked.status} and {ran.status}: {fault!r}"
    executed: list[list[list[int]]] = [[] for _ in text.executed]
    for event in read_output(ran.output).events:
        words = [value for _, value in event.fetched()]
        if event.kind == "step" and words[0] >= 2**21:  # no Noop
            executed[event.stream - 1].append(words[: words[0] % 2**21])
    return (
        None
        if executed == text.executed
        else "the commands that are executed are not those of the text"
    )


# --- Faults ---


def check_faults(top: Path, tally: Tally) -> None:
    """Each fault is one line, and each sentence has its case."""
    kinds = set()
    for line in (top / FAULTS).read_text(encoding="utf-8").splitlines()[1:]:
        kind, at, why, what, escaped = line.split("\t")
        kinds.add(kind)
        tally.tell(
            f"a text with {what}",
            fault_of_refusal(
                kind,
                f"x.commands:{at}: {why}",
                lambda: assemble(escaped.encode().decode("unicode_escape"), "x.commands"),
            ),
        )
    for kind, text in too_much():
        kinds.add(kind)
        tally.tell(
            f"a text that is refused by `{kind}`",
            fault_of_refusal(kind, None, lambda: assemble(text).text()),
        )
    left = sorted(errors.MESSAGES.keys() - kinds - wrong_calls.KINDS)
    tally.tell(str(FAULTS), f"it has no case of {left}" if left else None)


def too_much() -> Iterator[tuple[str, str]]:
    """Texts that pass a limit of scripts, each with the kind of its fault."""
    yield "flushes", HEAD + "flush\n" * (FLUSHES_AT_MOST + 1)
    yield "actions", HEAD + "memory 0 65536\n" + ("fill 0 0" + " 1" * 65_536 + "\n") * 16
    yield "long", HEAD + "#" * 16_777_216 + "\n"


def fault_of_refusal(kind: str, wanted: str | None, make: Callable[[], object]) -> str | None:
    """The fault of a refusal, or None."""
    try:
        make()
    except (Refused, ScriptError) as refused:
        is_so = refused.kind == kind and wanted in (None, str(refused)) and "\n" not in str(refused)
        return None if is_so else f"it is refused by {refused.kind!r}: {refused}"
    return "it is not refused"


def check_document(top: Path, tally: Tally) -> None:
    """The document has each sentence of a fault, the keys, and a text with its script."""
    text = (top / FORMATS).read_text(encoding="utf-8")
    part = text.partition("\n## The text of commands\n")[2].partition("\n## ")[0]
    rows = re.findall(r"^\| (.*?) +\|.* \|$", part, re.MULTILINE)
    for message in errors.MESSAGES.values():
        shape = re.escape(message).replace("`", "").replace(r"\{", "{").replace(r"\}", "}")
        found = any(
            re.fullmatch(re.sub(r"{\w+}", ".+", shape), row.replace("`", "")) for row in rows
        )
        tally.tell(f"{FORMATS}: {message}", None if found else "it is not told")
    from zorvleid.commands import TABLE

    for command in TABLE.values():
        keys = " ".join(command.keys)
        tally.tell(
            f"{FORMATS}: the keys of {command.name}",
            None
            if f"| {command.name} | {keys}" in part.replace("`", "")
            else f"it does not have `{keys}`",
        )
    blocks = dict(
        re.findall(r"^```(commands|assembled)\n(.*?)^```$", part, re.MULTILINE | re.DOTALL)
    )
    made = assemble(blocks.get("commands", "")).text() if blocks.get("commands") else ""
    tally.tell(
        f"{FORMATS}: the text and its script",
        None if made and made == blocks.get("assembled") else "they differ",
    )


# --- Calls and words ---


def check_calls(top: Path, tally: Tally) -> None:
    """`assemble` and `disassemble` as they are called, also with faults."""
    text, script = top / "examples/compositor.commands", top / "examples/compositor.script"
    full = HEAD + "Noop size=8\nflush\nNoop size=8\nflush\nInsertFence release=1\nflush\n"
    awaited = (
        "put 0 00000008\nflush 8\nput 8 00000008\nflush 0\nfinish\nput 0 20000003 1 0\nflush 3\n"
    )
    calls: tuple[tuple[list[str | Path], str, int, str, str | None], ...] = (
        (["assemble", text], "", 0, script.read_text(), ""),
        (["assemble"], text.read_text(), 0, script.read_text(), ""),
        (["assemble", "-"], text.read_text(), 0, script.read_text(), ""),
        (["disassemble", script], "", 0, text.read_text(), ""),
        (["disassemble"], script.read_text(), 0, text.read_text(), ""),
        (["assemble", "--await"], full, 0, "gpu-script 1\nstream 1 normal 16\n" + awaited, ""),
        (
            ["assemble"],
            full,
            5,
            "",
            "-:7:1: the service may still read place 0: "
            "wait by `finish` or `token` first, or allow "
            "it by `unchecked`\n",
        ),
        (
            ["assemble", script],
            "",
            5,
            "",
            f"{script}:2:1: this is a script, and no text of commands: `disassemble` makes one of "
            "it\n",
        ),
        (
            ["disassemble", text],
            "",
            5,
            "",
            f"{text}:2:1: this is a text of commands, and no script: `assemble` makes one of it\n",
        ),
        (["disassemble"], "#" * 16_777_217, 7, "", None),
        (["assemble", top / "examples"], "", 3, "", None),
        (["disassemble", top / "examples/nowhere.script"], "", 3, "", None),
        (["assemble", "--wait"], "", 2, "", None),
        (["assemble", text, text], "", 2, "", None),
    )
    for words, given, status, output, said in calls:
        ran = subprocess.run(
            [top / "zorvleid", *words], input=given, capture_output=True, text=True, check=False
        )
        is_so = (ran.returncode, ran.stdout) == (status, output) and said in (None, ran.stderr)
        lines = ran.stderr.count("\n") + (ran.returncode == 2)
        is_so = (
            is_so and (said is not None or 1 <= lines <= 3) and "Traceback" not in ran.stderr
        )
        tally.tell(f"zorvleid {' '.join(map(str, words))}", None if is_so else f"{ran}"[:1000])
    with open("/dev/full", "wb") as full_device:
        written = subprocess.run(
            [top / "zorvleid", "assemble", text],
            stdout=full_device,
            stderr=subprocess.PIPE,
            check=False,
        )
        is_so = written.returncode == 4 and written.stderr.count(b"\n") == 1
        tally.tell("zorvleid assemble onto a full device", None if is_so else str(written))
    made = Script()
    made.stream(ring=16).noop()
    tally.tell(
        "a script of one Noop",
        runs_differ("it", "gpu-script 1\nstream 1 normal 16\nput 0 00000001\n", made.text()),
    )
