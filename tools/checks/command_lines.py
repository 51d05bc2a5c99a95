"""Command lines, names of outputs and refused inputs, in a tree with and without a program.

tests/command_lines.tsv has refused command lines, with their statuses and what standard error says.
They are the same without a program and without a toolchain on the path. The table of commands and
the program accept the same lines. Each refused script and journal of the cases gets a second line,
and shellcheck has nothing to say about the shell scripts.
"""

import compileall
import os
import shlex
import shutil
import subprocess
import sys
import tempfile
from collections.abc import Iterator, Sequence
from concurrent.futures import ThreadPoolExecutor
from dataclasses import dataclass
from itertools import product
from pathlib import Path

from tools.checks.tally import Tally
from tools.places import PROGRAM

ROWS = Path("tests/command_lines.tsv")
PARTS = ("zorvleid", "command_line", "view", "python", "docs", "examples", "crates.txt", "HANDLES")
COMMANDS = ("sh", "cat", "dirname", "env", "readlink", "find", "head", "mktemp", "od", "rm", "tail",
            "tr", "true", "wc")
SHELL = ("zorvleid", "tools/build", "tools/check", ".ci/run", "bench/run", "python/run", "view/run")
LEAST = {"command lines": 60, "right lines": 40, "wrong lines": 60}
SECONDS, WORKERS = 600, 4


@dataclass(frozen=True)
class Ran:
    """The answer to a command line."""

    status: int
    output: bytes
    said: str


class Tree:
    """A copy of what `./zorvleid` is made of, with a path that has no toolchain."""

    def __init__(self, top: Path, folder: Path) -> None:
        self.top, self.path = folder / "tree", folder / "path"
        self.top.mkdir()
        for name in PARTS:
            if (top / name).is_dir():
                shutil.copytree(top / name, self.top / name)
            else:
                shutil.copy(top / name, self.top / name)
        (self.top / "tools").mkdir()
        for name in ("build", "preview"):
            shutil.copy(top / "tools" / name, self.top / "tools" / name)
        for part in ("src", "specs", "proofs"):
            (self.top / "crates/script_main" / part).mkdir(parents=True)
        self.path.mkdir()
        for name in COMMANDS:
            (self.path / name).symlink_to(shutil.which(name) or "/nowhere")
        (self.path / "python3").symlink_to(sys.executable)
        compileall.compile_dir(self.top, quiet=1)  # else each of the many calls compiles it anew

    def build(self, program: Path) -> None:
        """Puts a program there as if it were built."""
        (self.top / PROGRAM).parent.mkdir()
        shutil.copy(program, self.top / PROGRAM)

    def run(self, words: Sequence[str], data: bytes = b"", cwd: Path | None = None) -> Ran:
        """Runs a command line on an input."""
        ran = subprocess.run([self.top / "zorvleid", *words], input=data, capture_output=True,
                             check=False, cwd=cwd or self.top, env={"PATH": str(self.path)},
                             timeout=SECONDS)
        return Ran(ran.returncode, ran.stdout, ran.stderr.decode())

    def shell(self, line: str, data: bytes = b"") -> Ran:
        """Runs a line of the shell, in which $Z is the command."""
        ran = subprocess.run(["sh", "-c", line], input=data, capture_output=True, check=False,
                             cwd=self.top,
                             env={"PATH": str(self.path), "Z": str(self.top / "zorvleid")},
                             timeout=SECONDS)
        return Ran(ran.returncode, ran.stdout, ran.stderr.decode())


def check(top: Path, program: Path, tally: Tally) -> None:
    """Reports each command line, name and input with a wrong answer."""
    rows = [line.split("\t") for line in (top / ROWS).read_text().split("\n")[1:-1]]
    enough = len(rows) >= LEAST["command lines"]
    tally.tell(str(ROWS), None if enough else f"it has {len(rows)} rows")
    check_agreement(program, tally)
    check_second_lines(top, program, tally)
    check_shell_scripts(top, tally)
    with tempfile.TemporaryDirectory() as name:
        folder = Path(name)
        tree = Tree(top, folder)
        for state in ("without a program", "built"):
            if state == "built":
                tree.build(program)
            check_rows(tree, rows, state, tally)
            check_answers(tree, state, tally)
            check_outputs(tree, folder / state, state, tally)
        check_inputs(tree, folder, tally)
        check_streams(tree, folder, tally)
        check_versions(tree, tally)
        check_last_resorts(tree, tally)


def told(got: object, wanted: object) -> str | None:
    """The fault of an answer that differs from the wanted one."""
    return None if got == wanted else f"wanted {wanted!r}, got {got!r}"


# --- Command lines ---


def check_rows(tree: Tree, rows: Sequence[Sequence[str]], state: str, tally: Tally) -> None:
    """Each refused line is answered with its status and its line, and with no output."""
    lines = [
        [word.encode().decode("unicode_escape") for word in shlex.split(row[0])] for row in rows
    ]
    with ThreadPoolExecutor(WORKERS) as pool:
        for (text, status, said), ran in zip(rows, pool.map(tree.run, lines)):
            tally.tell(f"zorvleid {text} ({state})", told(ran, Ran(int(status), b"", said + "\n")))


def check_answers(tree: Tree, state: str, tally: Tally) -> None:
    """Help and version are printed at once; a run gives its output or asks for the toolchain."""
    for line in ("-h", "--help", "help", "help help", "help run", "run --help",
                 "run --workers 4 -h", "verify x --help",
                 "generate --help", "help timeline", "pictures --help", "explain -h"):
        ran = tree.run(line.split())
        is_help = (ran.status, ran.said) == (0, "") and ran.output.startswith(b"usage: ./zorvleid ")
        tally.tell(f"zorvleid {line} ({state})", None if is_help else str(ran))
    part = tree.run(["help", "run"]).output.decode()
    has_part = (
        all(word in part for word in ("--workers N", "--views V", "[FILE]"))
        and "--scale" not in part
    )
    tally.tell(f"the part of run ({state})", None if has_part else part)
    output = (tree.top / "examples/two_texels.stdout").read_bytes()
    for line in (
        "run examples/two_texels.script",
        "run --workers 0 examples/two_texels.script",
        "run --workers=0 examples/two_texels.script",
        "run - < examples/two_texels.script",
        "run < examples/two_texels.script",
        "run --workers 2 examples/two_texels.script",
        "run /dev/stdin < examples/two_texels.script",
        "run ./examples/../examples/two_texels.script",
        "cat examples/two_texels.script | $Z run",
    ):
        ran = tree.shell(line if "$Z" in line else f"$Z {line}")
        if state == "built":
            tally.tell(f"zorvleid {line} ({state})", told(ran, Ran(0, output, "")))
        else:
            counts = (ran.status, ran.output, ran.said.count("\n"))
            asks = counts == (127, b"", 1) and "(rt)" in ran.said
            tally.tell(f"zorvleid {line} ({state})", None if asks else str(ran))


def lines_of_the_program() -> Iterator[tuple[str, ...]]:
    """Command lines for the program, right ones and wrong ones, without the names of files."""
    options = ("--workers", "--workers=0", "--workers=8", "--workers=9", "--views", "--views=2",
               "-x")
    for command in ("run", "check", "verify"):
        yield (command,)
        for first in options:
            yield command, first
            yield from ((command, first, value) for value in "0489")
    for workers in "12345678":
        yield "run", "--workers", workers
        yield "run", f"--workers={workers}"
    for workers, views in product("01389", "01245"):
        yield "run", "--workers", workers, "--views", views
        yield "run", f"--workers={workers}", "--views", views
        yield "run", "--views", views, "--workers", workers
        yield "run", "--workers", workers, f"--views={views}"
    numbers = ("0", "1", "2000", "2001", "0001", "4294967295", "4294967296", "00000000001", "-1",
               "x", "1e3", "")
    for command in ("generate", "trial"):
        yield (command,)
        yield from ((command, size) for size in numbers)
        yield from ((command, "1", seed) for seed in numbers)
        yield from (
            (command, size, "1") for size in numbers if command == "generate" or size != "2000"
        )
        yield command, "1", "1", "1"


def names_file(words: Sequence[str]) -> bool:
    """Whether the script takes the last word for the name of a file, and keeps it."""
    if words[0] in ("generate", "trial") or len(words) == 1:
        return False
    return words[-2] not in ("--workers", "--views") and not words[-1].startswith("-")


def check_agreement(program: Path, tally: Tally) -> None:
    """The table takes exactly the lines that the program takes."""
    from command_line import judge

    counts = {"right lines": 0, "wrong lines": 0}
    for words in lines_of_the_program():
        if names_file(words):
            continue
        ran = subprocess.run(
            [program, *words], stdin=subprocess.DEVNULL, capture_output=True, check=False
        )
        is_right, why = ran.returncode != 2, judge.reason(words)
        counts["right lines" if is_right else "wrong lines"] += 1
        fault = f"the program {'takes' if is_right else 'refuses'} it, and the table says {why!r}"
        tally.tell(f"{words} by the table", None if is_right == (why is None) else fault)
    for name, count in counts.items():
        tally.tell(f"{name} for the table", None if count >= LEAST[name] else f"there are {count}")


# --- Names of outputs ---


@dataclass(frozen=True)
class Name:
    """A name for the output of `timeline`: the files before, the command line, and its results."""

    what: str
    before: str
    line: str
    status: int = 0
    said: str = ""
    after: str = ":"  # a line of the shell that ends with 0 where all is right


PAGE = "grep -q '<!DOCTYPE html>' {0} && tail -n 1 {0} | grep -q '</html>'"
NAMES = (
    Name("a new file", ":", "--page page", after=PAGE.format("page")),
    Name("a file with rights of its own", "echo old > page; chmod 640 page", "--page page",
         after=f"{PAGE.format('page')} && [ \"$(stat -c %a page)\" = 640 ]"),
    Name("a link", "echo old > page; ln -s page link", "--page link",
         after=f"[ -h link ] && [ ! -h page ] && {PAGE.format('page')}"),
    Name("a link to a link to nothing", "mkdir f; ln -s f/page one; ln -s one two", "--page two",
         after=f"[ -h two ] && [ -h one ] && [ ! -h f/page ] && {PAGE.format('f/page')}"),
    Name("a link into no folder", "ln -s no/page link", "--page link", 4,
         "write fault: link: No such file or directory", "[ -h link ]"),
    Name("a loop of links", "ln -s two one; ln -s one two", "--page one", 4,
         "write fault: one: Too many levels of symbolic links", "[ -h one ] && [ -h two ]"),
    Name("standard output", ":", "--page - > page", after=PAGE.format("page")),
    Name("the device of standard output", ":", "--page /dev/stdout > page",
         after=PAGE.format("page")),
    Name("what is appended to", "echo kept > page", "--page /dev/stdout >> page",
         after=f"head -n 1 page | grep -q kept && {PAGE.format('page')}"),
    Name("another descriptor", ":", "--page /dev/fd/7 7> page", after=PAGE.format("page")),
    Name("a closed descriptor", ":", "--page /dev/fd/9", 4,
         "write fault: /dev/fd/9: Bad file descriptor"),
    Name("the null device", ":", "--page /dev/null", after="[ -c /dev/null ]"),
    Name("a full device", ":", "--page /dev/full", 4,
         "write fault: /dev/full: No space left on device",
         "[ -c /dev/full ]"),
    Name("a pipe", "mkfifo pipe; cat pipe > page &", "--page pipe",
         after=f"[ -p pipe ] && wait && {PAGE.format('page')}"),
    Name("a folder", "mkdir f", "--page f", 2, "bad command line: f is a folder, and no file",
         "[ -d f ]"),
    Name("a folder that is not there", ":", "--page f/", 2,
         "bad command line: f/ is a folder, and no file"),
    Name("no folder above", ":", "--page f/page", 4,
         "write fault: f/page: No such file or directory"),
    Name("an empty name", ":", "--page ''", 2,
         "bad command line: --page takes the name of a file, not ''"),
    Name("one file for both", "echo old > page", "--page page --trace page", 2,
         "bad command line: page is named twice", "grep -q old page"),
    Name("one file by two names", "echo old > page; ln -s page link", "--page page --trace link", 2,
         "bad command line: link and page are one file", "grep -q old page"),
    Name("two files, one in no folder", "echo old > page", "--page page --trace f/trace", 4,
         "write fault: f/trace: No such file or directory", "grep -q old page"),
    Name("two files, one full", "echo old > page", "--page page --trace /dev/full", 4,
         "write fault: /dev/full: No space left on device", "grep -q old page"),
    Name("a long name", ":", f"--page {'x' * 255}", after=PAGE.format("x" * 255)),
)


def check_outputs(tree: Tree, folder: Path, state: str, tally: Tally) -> None:
    """A page is written to where its name leads, whole or not at all, and nothing else changes."""
    folder.mkdir()
    env = {"PATH": f"{tree.path}:/usr/bin:/bin", "Z": str(tree.top / "zorvleid"),
           "O": str(tree.top / "examples/compositor.stdout")}

    def write(item: tuple[int, Name]) -> tuple[str, str]:
        here, name = folder / str(item[0]), item[1]
        here.mkdir()
        line = f"{name.before}\n$Z timeline {name.line} < $O; s=$?\n{name.after} || s=after\n"
        line += "[ -z \"$(find . -name '.*.part')\" ] || s=parts\n[ $s = 0 ] || echo $s"
        ran = subprocess.run(["sh", "-c", line], capture_output=True, text=True, check=False,
                             cwd=here,
                             env=env, timeout=SECONDS)
        return ran.stdout, ran.stderr

    with ThreadPoolExecutor(WORKERS) as pool:
        for name, got in zip(NAMES, pool.map(write, enumerate(NAMES))):
            wanted = (f"{name.status}\n" if name.status else "",
                      name.said + "\n" if name.said else "")
            tally.tell(f"timeline to {name.what} ({state})", told(got, wanted))
    for words in (["timeline", "--page", "page"], ["pictures", "--into", "into"]):
        ran = tree.run(words, cwd=folder)
        counts = (ran.status, ran.output, ran.said.count("\n"))
        is_told = counts == (5, b"", 1) and "is empty" in ran.said
        is_told = is_told and not any((folder / name).exists() for name in ("page", "into"))
        tally.tell(f"{words[0]} of nothing ({state})", None if is_told else str(ran))


# --- Refused inputs ---

BEGINS = "a script begins with the line `gpu-script 1` or `gpu-script 2`"
PAST_THE_RING = ("put 15 1 [2]: a value would stand at place 16, "
                 "and the ring of stream 1 has places 0 to 15")
NO_SCRIPTS = {
    "an empty file": (b"", f"the input is empty; {BEGINS}"),
    "a byte-order mark": (b"\xef\xbb\xbfgpu-script 1\n",
                          "the input begins with a byte-order mark: save it without one"),
    "UTF-16 with its mark": ("\ufeffgpu-script 1\n".encode("utf-16-le"),
                             "the input is UTF-16, and a script is plain ASCII: save it as ASCII"),
    "UTF-16 without its mark": ("gpu-script 1\n".encode("utf-16-be"),
                                "the input is UTF-16, and a script is plain ASCII: save it as "
                                "ASCII"),
    "a program": (b"\x7fELF\x02\x01\x01\0", f"the input is a binary file; {BEGINS}"),
    "a packed file": (b"\x1f\x8b\x08\0", "the input is packed by gzip: unpack it first"),
    "a later version": (b"gpu-script 3\n",
                        "gpu-script [3]: there is no such version of scripts; the head is "
                                           "`gpu-script 1` or `gpu-script 2`"),
    "an output": (b"order 1 1 11\n", f"[order] 1 1 11: this is an output, and no script; {BEGINS}"),
    "an output without events": (b"stream 1 done entries 0 release 0\n",
                                 "[stream] 1 done entries ..: this is an output, and no script; "
                                 f"{BEGINS}"),
    "a text of commands": (b"# of two lines\ngpu-commands 1\n",
                           "[gpu-commands] 1: this is a text of commands, and no script: "
                           "`assemble` makes one of it"),
    "a page": (b"<!DOCTYPE html>\n", f"[<!DOCTYPE] html>: {BEGINS}"),
    "remarks": (b"# nothing\n\n", f"the input has no line but blank ones and comments; {BEGINS}"),
    "a put past the ring": (b"gpu-script 1\nstream 1 normal 16\nput 15 1 2\n", PAST_THE_RING),
}


def check_inputs(tree: Tree, folder: Path, tally: Tally) -> None:
    """An input that is no script gets a sentence of its own, however it comes in."""
    for what, (data, sentence) in NO_SCRIPTS.items():
        (folder / "input").write_bytes(data)
        ways = (tree.run(["run", str(folder / "input")]), tree.run(["check", "-"], data),
                tree.shell(f"$Z run --workers 2 < '{folder}/input'"),
                tree.shell("cat | $Z verify", data))
        for way, ran in enumerate(ways):
            said = ran.said.split("\n")
            is_told = ran.status == 5 and ran.output == b"" and said[0].startswith("refused: line ")
            tally.tell(
                f"{what}, way {way}", None if is_told and said[1:] == [sentence, ""] else str(ran)
            )


def check_second_lines(top: Path, program: Path, tally: Tally) -> None:
    """Each refused script and journal of the cases gets a second line with words of its line."""
    from command_line import refused

    inputs = [(str(path.stem), path.with_suffix(".script").read_bytes(), path.read_text().strip())
              for path in sorted((top / "tests/cases").rglob("*.stderr"))
              if path.with_suffix(".script").exists()]
    for line in (top / "tests/short_inputs.tsv").read_text().splitlines()[1:]:
        what, _, _, said, _, text = line.split("\t")
        inputs.append((f"{what}: {text[-40:]}",
                       text.encode().decode("unicode_escape").encode("latin-1"), said))
    for name, data, said in inputs:
        if said.startswith("refused: "):
            why = refused.why(data, said)
            tally.tell(
                f"a second line for {name}", None if why and "\n" not in why else f"it is {why!r}"
            )
    data, why = NO_SCRIPTS["a put past the ring"]
    tally.tell("the second line of a place", told(refused.why(data, "refused: line 3: Place"), why))
    for kind in ("Word", "Number", "Order", "Double", "Limit"):
        tally.tell(f"no second line of a wrong {kind}",
                   told(refused.why(data, f"refused: line 3: {kind}"), None))


OUTPUT = "write fault: standard output"
WRITING = ("--help", "--version", "assemble examples/names.commands", "log examples/names.stdout",
           "disassemble examples/names.script",
           "compare examples/names.stdout examples/names.stdout")
READING = ("assemble", "disassemble", "log", "compare - examples/names.stdout", "pictures",
           "timeline --page page", "explain")


def check_streams(tree: Tree, folder: Path, tally: Tally) -> None:
    """A failed read or write is reported in one line, and leaves no file."""
    for line, status, said in (
        ("$Z check < .", 3, "read fault: standard input: it is a folder"),
        ("$Z check <&-", 3, "read fault: standard input: it is closed"),
        ("$Z check examples/names.script > /dev/full", 4, "write fault"),
        ("$Z check examples/names.script >&-", 4, f"{OUTPUT}: it is closed"),
        *((f"$Z {words} > /dev/full", 4, f"{OUTPUT}: No space left on device")
          for words in WRITING),
        *((f"$Z {words} >&-", 4, f"{OUTPUT}: it is closed") for words in WRITING),
        *((f"$Z {words} {closed}", 3, "read fault: standard input: it is closed, or a folder")
          for words in READING for closed in ("<&-", "< .")),
        ("$Z explain --program ./README.md < examples/names.stdout", 126,
         "the program does not start: README.md: No such file or directory"),
        ("yes | $Z check", 7, "input too long: it has more than 16,777,216 bytes"),
        ("yes | $Z verify --whole", 7, "input too long: it has more than 67,108,864 bytes"),
    ):
        ran = tree.shell(f"export TMPDIR='{folder}' PATH=$PATH:/usr/bin:/bin; {line}")
        tally.tell(line, told(ran, Ran(status, b"", said + "\n")))
    left = list(folder.glob("tmp.*"))
    tally.tell("what is left of kept inputs", told(left, []))
    script, journal = (
        (tree.top / f"examples/names{end}").read_bytes() for end in (".script", ".stdout")
    )
    returned = (script + b"journal\n" + journal).replace(b"\n", b"\r\n")
    for words in (["verify"], ["verify", "--whole"]):
        ran = tree.run(words, returned)
        is_yes = (ran.status, ran.said) == (0, "") and ran.output.startswith(b"yes events ")
        tally.tell(f"{' '.join(words)} with carriage returns", None if is_yes else str(ran))
    ran = tree.run(["verify", "--whole"], returned.replace(b"mark 2 2 1", b"mark 2 2 2"))
    tally.tell("a wrong mark with carriage returns",
               None if (ran.status, ran.said) == (9, "no: line 24: mark\n") else str(ran))
    ran = tree.run(["verify"], returned.replace(b"order 2 2", b"ordr 2 2"))
    tally.tell("a wrong journal with carriage returns",
               None if ran.status == 11 and "\n[ordr] 2 2 6: " in ran.said else str(ran))
    ran = tree.run(["timeline", "--page", "-"], journal.replace(b"\n", b"\r\n"))
    tally.tell("a page of an output with carriage returns",
               told((ran.status, ran.said), (0, ""))
               or told(ran.output, tree.run(["timeline", "--page", "-"], journal).output))


# --- The version, and missing tools ---


def check_versions(tree: Tree, tally: Tally) -> None:
    """The version names the commit, the kit and the program at hand."""
    program, kept = tree.top / PROGRAM, tree.top / "kept"
    head = (
        "zorvleid 0.1.0\ncommit: not known, since git tells none\nkit: none, since no rt is on the "
        "path\n"
    )
    tell = "the program at hand"

    def said(wanted: str) -> None:
        ran = tree.run(["--version"])
        tally.tell(
            f"{tell}, {wanted}", told(ran, Ran(0, f"{head}program: {wanted}\n".encode(), ""))
        )

    said("newer than its sources, of these sources; tools/build builds only what is proved")
    os.utime(tree.top / "crates.txt", (2**32, 2**32))
    said("older than its sources; the next run proves and builds it anew")
    os.utime(tree.top / "crates.txt", (0, 0))
    program.rename(kept)
    said("not built; the first run proves and builds it")
    kept.rename(program)


def check_last_resorts(tree: Tree, tally: Tally) -> None:
    """A fault of a tool itself is one line, and without Python the program runs as it does."""
    page = tree.top / "view/page.py"
    page.write_text(
        page.read_text() + "\n\ndef text_of(history, recorder):\n    return history / 0\n"
    )
    ran = tree.shell("$Z timeline --page - < examples/names.stdout")
    counts = (ran.status, ran.output, ran.said.count("\n"))
    is_line = counts == (4, b"", 1) and "TypeError" in ran.said
    tally.tell("a fault of a tool", None if is_line else str(ran))
    script = tree.top / "zorvleid"
    script.write_text(script.read_text().replace(" /usr/bin/python3", ""))
    (tree.path / "python3").unlink()
    output = (tree.top / "examples/names.stdout").read_bytes()
    tally.tell(
        "a run without Python", told(tree.run(["run", "examples/names.script"]), Ran(0, output, ""))
    )
    missing = "python3 is missing, which answers here: apt install python3\n"
    tally.tell("help without Python", told(tree.run(["--help"]), Ran(127, b"", missing)))
    ran = tree.run(["run", "--workers", "9"])
    tally.tell("wrong words without Python", told(ran, Ran(2, b"", missing + "bad command line\n")))
    ran = tree.run(["run"], b"gpu-script 3\n")
    tally.tell("a refused script without Python", told(ran, Ran(5, b"", "refused: line 1: Head\n")))


def check_shell_scripts(top: Path, tally: Tally) -> None:
    """Shellcheck has nothing to say about the shell scripts."""
    if shutil.which("shellcheck") is None:
        tally.skip("the shell scripts", "shellcheck is missing (apt install shellcheck)")
        return
    for name in SHELL:
        ran = subprocess.run(
            ["shellcheck", top / name], capture_output=True, text=True, check=False
        )
        tally.tell(f"shellcheck {name}", None if ran.returncode == 0 else ran.stdout)
