"""What `verify --each` says of a folder: the answers to its files, their kinds, and the worst.

The folder has the examples with their outputs, each in many ways: right, with another number, cut,
without a journal, with carriage returns. The answers are those of tests/model_whole.py, and without
`--whole` those that the program gives to one file.
"""

import re
import subprocess
import tempfile
from collections import Counter
from collections.abc import Iterator
from pathlib import Path

from tests import model_whole
from tools.checks import answers
from tools.checks.tally import Tally

KINDS = {9: "no", 11: "no journal", 5: "no script", 10: "not complete", 0: "yes"}
FILES = 2000
Answer = tuple[int, str]


def check(top: Path, program: Path, tally: Tally) -> None:
    """Reports each answer that is wrong."""
    with tempfile.TemporaryDirectory() as name:
        folder = Path(name)
        inputs = dict(inputs_of(top))
        for file, data in inputs.items():
            (folder / file).parent.mkdir(exist_ok=True)
            (folder / file).write_bytes(data)
        (folder / ".hidden").write_bytes(b"x")
        plain = {data.replace(b"\r\n", b"\n") for data in inputs.values()}
        for words, wanted in (("--whole", {data: model_whole.answer(data) for data in plain}),
                              ("", {data: alone(program, data) for data in plain})):
            due = {str(folder / file): wanted[data.replace(b"\r\n", b"\n")]
                   for file, data in inputs.items()}
            tally.tell(f"verify --each {words}",
                       fault_of(top, program, [*words.split(), "--each", name], due))
    check_calls(top, program, tally)


def inputs_of(top: Path) -> Iterator[tuple[str, bytes]]:
    """The name and the bytes of each input."""
    for path in sorted((top / "examples").glob("*.script")):
        script, output = path.read_bytes(), path.with_suffix(".stdout").read_bytes()
        whole = script + b"journal\n" + output
        yield f"right/{path.stem}", whole
        yield f"right/{path.stem}.returns", whole.replace(b"\n", b"\r\n")
        lines = output.splitlines(True)
        yield f"cut.{path.stem}", script + b"journal\n" + b"".join(lines[:len(lines) // 3])
        yield f"script.{path.stem}", script
        yield f"order.{path.stem}", script + b"journal\n" + re.sub(
            rb"(?m)^(order \d+) (\d+)", rb"\1 9\2", output, count=1)
        yield f"image.{path.stem}", script + b"journal\n" + re.sub(
            rb"(?m)^(image \d+) (\d+)", rb"\1 9\2", output, count=1)
    yield "empty", b""
    yield "none", b"x\n"


def alone(program: Path, data: bytes) -> Answer:
    """The answer of the program to one input."""
    ran = subprocess.run([program, "verify"], input=data, capture_output=True, check=False)
    return ran.returncode, ran.stderr.decode("latin-1").rstrip("\n")


def fault_of(top: Path, program: Path, words: list[str], due: dict[str, Answer]) -> str | None:
    """What is wrong with the answers to a folder."""
    ran = each(top, program, words)
    lines = [f"{name}: {said}" for name, (status, said) in sorted(due.items(), key=by_path)
             if status]
    counts = Counter(status for status, _ in due.values())
    order = list(KINDS)
    kinds = ", ".join(f"{counts[kind]} {KINDS[kind]}" for kind in order if counts[kind])
    worst = next(f"{name}: {said}" for kind in order
                 for name, (status, said) in sorted(due.items(), key=by_path) if status == kind)
    lines += [f"{len(due)} files: {kinds}", f"worst: {worst}"]
    wanted = (min((status for status, _ in due.values()), key=order.index),
              "".join(f"{line}\n" for line in lines), f"{worst}\n")
    got = (ran.returncode, ran.stdout.decode(), ran.stderr.decode())
    return None if got == wanted else f"wanted {wanted}, got {got}"


def by_path(item: tuple[str, Answer]) -> tuple[str, ...]:
    return Path(item[0]).parts


def each(top: Path, program: Path, words: list[str]) -> answers.Ran:
    """The tool as ./zorvleid calls it, with the program at hand."""
    return subprocess.run([top / "view/run", "each", "--program", program, *words],
                          capture_output=True, check=False, cwd=top / "examples")


def check_calls(top: Path, program: Path, tally: Tally) -> None:
    """Thousands of right files are counted; a folder that is none, or is empty, is refused."""
    with tempfile.TemporaryDirectory() as name:
        empty = each(top, program, ["--each", name])
        data = b"".join((top / f"examples/two_texels{end}").read_bytes() + between
                        for end, between in ((".script", b"journal\n"), (".stdout", b"")))
        for at in range(FILES):
            (Path(name) / f"{at:04}").write_bytes(data)
        ran = each(top, program, ["--each", name])
        wanted = (0, f"{FILES:,} files: {FILES:,} yes\n".encode(), b"")
        got = (ran.returncode, ran.stdout, ran.stderr)
        tally.tell("verify --each of thousands", None if got == wanted else str(ran))
        (Path(name) / "0000").write_bytes(data + b"x\n")
        ran = each(top, program, ["--quiet", "--whole", "--each", name])
        is_so = (ran.returncode, ran.stdout, ran.stderr.count(b"\n")) == (9, b"", 1)
        tally.tell("verify --quiet --each", None if is_so else str(ran))
        is_told = (empty.returncode, empty.stdout, empty.stderr.count(b"\n")) == (3, b"", 1)
        tally.tell("verify --each of no file", None if is_told else str(empty))
    for name, said in (("nowhere", "no such file"), ("names.script", "it is no folder")):
        ran = each(top, program, ["--each", name])
        wanted = (3, b"", f"read fault: {name}: {said}\n".encode())
        got = (ran.returncode, ran.stdout, ran.stderr)
        tally.tell(f"verify --each {name}", None if got == wanted else str(ran))
