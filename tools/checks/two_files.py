"""A script and a journal as two files for a judgement, and outputs as files for the tools.

Two files give what the program gives for one that has both, even if a last line feed is missing.
The lines that are named then are lines of the file of the journal. `--quiet` writes nothing if the
answer is yes, and a missing line `journal` is reported as such.
"""

import subprocess
import tempfile
from collections.abc import Iterator
from concurrent.futures import ThreadPoolExecutor
from dataclasses import dataclass
from pathlib import Path

from tools.checks.command_lines import Ran, Tree
from tools.checks.tally import Tally

EXAMPLES = ("names", "compositor", "reading_results", "lost_stream")
WAYS = ("s j", "s_cut j", "s j_cut", "s_cut j_cut", "- j < s_cut", "s - < j_cut")
# A change of the output of `names`, words, and what is said: on standard error, and by `explain`.
WRONG = (
    ("order 2 2", "ordr 2 2", "verify", 11, "refused: journal line 17\nline 5 of j: [ordr] 2 2 6: ",
     "line 5 of j is no line of a journal:"),
    ("order 2 2", "order 2 3", "verify", 9, "no: event 2 rule 2\n",
     "event 2 of the journal, line 5 of j, breaks rule 2:"),
    ("mark 2 2 1", "mark 2 2 2", "verify --whole", 9, "no: line 24: mark\nline 12 of j\n",
     "line 12 of j is off (mark):"),
)
MISSING = (
    ("verify s", 11, "no line has the one word `journal`, which stands between the script and the "
     "journal; two files need none: verify SCRIPT JOURNAL"),
    ("verify glued", 5, "[gpu-journal] 2: a journal begins here, and the line `journal` is missing "
     "before it"),
    ("verify glued_1", 5, "[order] 1 1 11: a journal begins here, and the line `journal` is "
     "missing before it"),
)


@dataclass(frozen=True)
class Row:
    """A line of the shell in a folder of files, and what it has to answer."""

    files: dict[str, bytes]
    line: str
    status: int
    output: bytes | None  # None where anything may be written
    said: str = ""
    begins: bool = False  # whether what is said, and the output, only begin so


def check(top: Path, program: Path, tally: Tally) -> None:
    """Reports each answer to two files that is not the one to both in one."""
    with tempfile.TemporaryDirectory() as name:
        tree = Tree(top, Path(name))
        tree.build(program)
        rows = [*right(top, program), *wrong(top), *missing(top), *named(top, tree)]
        with ThreadPoolExecutor(4) as pool:
            found = pool.map(lambda row: fault_of(tree, Path(name), row), enumerate(rows))
            for row, fault in zip(rows, found):
                tally.tell(f"{row.line} ({row.said.strip()[:40]})", fault)


def fault_of(tree: Tree, folder: Path, numbered: tuple[int, Row]) -> str | None:
    """The fault of an answer, or None."""
    number, row = numbered
    here = folder / f"row-{number}"
    here.mkdir()
    for name, data in row.files.items():
        (here / name).write_bytes(data)
    ran = subprocess.run(["sh", "-c", f"$Z {row.line}"], capture_output=True, check=False, cwd=here,
                         env={"PATH": str(tree.path), "Z": str(tree.top / "zorvleid")})
    got = Ran(ran.returncode, ran.stdout, ran.stderr.decode())
    output = row.output if row.output is not None else got.output
    if row.begins:
        is_so = got.said.startswith(row.said) and got.output.startswith(output)
    else:
        is_so = (got.said, got.output) == (row.said, output)
    wanted = (row.status, row.said, output[:60])
    return None if is_so and got.status == row.status else f"wanted {wanted}, got {got}"[:600]


def files_of(top: Path, name: str) -> dict[str, bytes]:
    """A script and its output, whole and without their last line feeds."""
    ends = (".script", ".stdout")
    script, output = ((top / f"examples/{name}{end}").read_bytes() for end in ends)
    return {"s": script, "j": output, "s_cut": script[:-1], "j_cut": output[:-1]}


def right(top: Path, program: Path) -> Iterator[Row]:
    """Right journals, in all ways, by the answer of the program to one file."""
    for name in EXAMPLES:
        files = files_of(top, name)
        data = files["s"] + b"journal\n" + files["j"]
        ran = subprocess.run([program, "verify"], input=data, capture_output=True, check=True)
        for way in WAYS if name == "names" else WAYS[3:4]:
            yield Row(files, f"verify {way}", 0, ran.stdout)
            yield Row(files, f"verify --whole --quiet {way}", 0, b"")
        yield Row(files, "explain --whole s_cut j_cut", 0, ran.stdout)
        yield Row(files, "explain --quiet s_cut j_cut", 0, b"")


def wrong(top: Path) -> Iterator[Row]:
    """Wrong journals, whose lines are those of their own file."""
    for old, new, words, status, said, told in WRONG:
        files = files_of(top, "names")
        for name in ("j", "j_cut"):
            files[name] = files[name].replace(old.encode(), new.encode())
        yield Row(files, f"{words} --quiet s_cut j", status, b"", said, begins=True)
        words = words.replace("verify", "explain")
        said = said.split("\n")[0]
        yield Row(files, f"{words} s_cut j", status, told.encode(), said, begins=True)


def missing(top: Path) -> Iterator[Row]:
    """Inputs without the line `journal`."""
    files, other = files_of(top, "names"), files_of(top, "two_texels")
    files |= {"glued": files["s"] + files["j"], "glued_1": other["s"] + other["j"]}
    for line, status, why in MISSING:
        first = "journal line 12" if status == 11 else "line 12: Word"
        first = "line 5: Word" if "glued_1" in line else first
        yield Row(files, line, status, b"", f"refused: {first}\n{why}\n")


def named(top: Path, tree: Tree) -> Iterator[Row]:
    """Outputs that are named: what is written is that of standard input."""
    files = files_of(top, "names")
    page = tree.run(["timeline", "--page", "-"], files["j"]).output
    yield Row(files, "timeline --page - j", 0, page)
    files["both"] = (files["s"] + b"journal\n" + files["j"]).replace(b"order 2 2", b"order 2 3")
    yield Row(files, "explain both", 9, b"event 2 of the journal, line 17 of the input, ",
              "no: event 2 rule 2\n", begins=True)
    files = files_of(top, "two_texels")
    yield Row(files, "pictures --into f j && cat f/image-1.png", 0, b"\x89PNG", begins=True)
