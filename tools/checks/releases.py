"""A release of a copy of the repository: it is made or refused, and runs with no toolchain."""

import re
import shutil
import subprocess
import tarfile
import tempfile
from pathlib import Path

from tools.checks.tally import Tally
from tools.places import PROGRAM

COMMANDS = ("sh", "cat", "dirname", "readlink", "mktemp", "head", "rm", "python3")
LINK = re.compile(r"\]\(([^)\s#:]+)[^):]*\)")
MADE = ("page.html", "trace.json")  # by the runs of this check
STRANGE = ("tools/", "crates/", ".ci/", "first run proves", "preview")  # what a release has not
LEFT_OUT = (".git", "out", "__pycache__", "cases", "crates", "bench")
TIME = "2020-01-01T00:00:00Z"


def check(top: Path, program: Path, tally: Tally) -> None:
    """Reports each fault of a release."""
    if shutil.which("git") is None:
        tally.skip("the release", "git is missing (apt install git)")
        return
    with tempfile.TemporaryDirectory() as folder:
        copy, log = Path(folder) / "copy", Path(folder) / "gate.log"
        commit = make_copy(top, program, copy)
        passed = f"1 passed, 0 failed\nthe gate passed on {commit}\n"
        check_refusals(copy, log, passed, Path(folder), tally)
        log.write_text(passed)
        archives = []
        for into in ("one", "two"):
            (Path(folder) / into).mkdir()
            ran = make(copy, log, Path(folder) / into)
            archives.append(ran.stdout.strip())
            if ran.returncode != 0:
                tally.tell("the release", f"it is refused: {ran.stderr}")
                return
        tally.tell("the release, made twice",
                   None if read(archives[0]) == read(archives[1]) else "its bytes differ")
        check_unpacked(top, Path(archives[0]), Path(folder) / "empty", commit, tally)


def read(path: str | Path) -> bytes:
    return Path(path).read_bytes()


def git(copy: Path, *words: str) -> str:
    who = ["-c", "user.name=check", "-c", "user.email=check@example.org"]
    ran = subprocess.run(["git", *who, *words], cwd=copy, capture_output=True, text=True,
                         check=True, env={"PATH": "/usr/local/bin:/usr/bin:/bin", "HOME": str(copy),
                              "GIT_AUTHOR_DATE": TIME,
                              "GIT_COMMITTER_DATE": TIME})
    return ran.stdout.strip()


def make_copy(top: Path, program: Path, copy: Path) -> str:
    """A repository of its own with the files of a release, and the program as if built there."""
    shutil.copytree(top, copy, ignore=shutil.ignore_patterns(*LEFT_OUT), symlinks=True)
    for part in ("src", "specs", "proofs"):
        (copy / "crates/script_main" / part).mkdir(parents=True)
        (copy / "crates/script_main" / part / "kept").write_text("")
    git(copy, "init", "-q")
    git(copy, "add", "-A")
    git(copy, "commit", "-q", "-m", "all")
    (copy / PROGRAM).parent.mkdir()
    shutil.copyfile(program, copy / PROGRAM)
    (copy / PROGRAM).chmod(0o755)
    return git(copy, "rev-parse", "HEAD")


def make(copy: Path, log: Path, into: Path) -> "subprocess.CompletedProcess[str]":
    """Makes a release, or is refused."""
    words: list[str | Path] = [copy / "tools/release", "--gate", log, "--into", into, "--toolchain",
                               "a toolchain"]
    return subprocess.run(words, capture_output=True, text=True, check=False)


def check_refusals(copy: Path, log: Path, passed: str, folder: Path, tally: Tally) -> None:
    """A release is refused by one line, and leaves nothing."""
    stray = copy / "stray"

    def refused(name: str, word: str) -> None:
        ran = make(copy, log, folder)
        left = list(folder.glob("*.tar.gz*"))
        is_so = (
            ran.returncode == 1 and word in ran.stderr and ran.stderr.count("\n") == 1 and not left
        )
        tally.tell(f"a release {name}", None if is_so else f"it is not refused so: {ran}")

    refused("with no log", "No such file")
    for name, text in (("with a log that breaks off", "rt ci\n"), ("with an empty log", ""),
                       ("with another commit's log", passed.replace(" on ", " on 0")),
                       ("with a log of changes", passed.rstrip() + ",  M README.md\n")):
        log.write_text(text)
        refused(name, "gate")
    log.write_text(passed)
    stray.write_text("")
    refused("of a tree with changes", "changes")
    stray.unlink()
    program = copy / PROGRAM
    program.rename(program.with_name("kept"))
    refused("with no program", "program")
    program.with_name("kept").rename(program)


def check_unpacked(top: Path, archive: Path, folder: Path, commit: str, tally: Tally) -> None:
    """The unpacked release runs in an empty folder, with only its named tools on the path."""
    folder.mkdir()
    with tarfile.open(archive) as tar:
        tar.extractall(folder)
    (there,) = folder.iterdir()
    is_so = archive.name == f"{there.name}.tar.gz"
    tally.tell("the name of the release", None if is_so else f"{archive.name} has {there.name}")
    path = folder / "path"
    path.mkdir()
    for name in COMMANDS:
        if found := shutil.which(name):
            (path / name).symlink_to(found)

    def run(words: list[str], stdin: bytes, wanted: bytes | None, name: str) -> None:
        ran = subprocess.run(["./zorvleid", *words], input=stdin, cwd=there, capture_output=True,
                             check=False,
                             env={"PATH": str(path)})
        fault = (
            None
            if (ran.returncode, ran.stderr) == (0, b"") and wanted in (None, ran.stdout)
            else str(ran)
        )
        tally.tell(f"the release, {name}", fault)

    for name in ("two_texels", "compositor"):
        script, output = (
            read(there / f"examples/{name}{ending}") for ending in (".script", ".stdout")
        )
        run(["run"], script, output, f"run of {name}")
    run(["timeline", "--page", "page.html", "--trace", "trace.json"], output, b"", "timeline")
    run(["explain"], script + b"journal\n" + output, None, "explain")
    run(["assemble"], read(there / "examples/compositor.commands"), script, "assemble")
    version = (
        f"zorvleid 0.1.0\ncommit: {commit}\nkit: a toolchain\nprogram: proved, of this commit; the "
        f"gate passed on {commit}\n"
    )
    run(["--version"], b"", version.encode(), "version")
    check_links(there, tally)
    check_readme(there, tally)
    checker = ["sha256sum", "--check", "--quiet", "SHA256SUMS"]
    sums = subprocess.run(checker, cwd=there, capture_output=True, text=True, check=False)
    tally.tell("the release, its sums", sums.stderr.strip() or sums.stdout.strip() or None)
    facts = (there / "RELEASE").read_text()
    named = all(word in facts for word in (commit, "a toolchain", f"the gate passed on {commit}"))
    tally.tell("the release, RELEASE", None if named else f"it says {facts!r}")
    listed = {line.split("  ")[1] for line in (there / "SHA256SUMS").read_text().splitlines()}
    packed = {"bin/script_main", "zorvleid", "README.md", "RELEASE", "docs/zorvleid.1",
              "docs/FORMATS.md", "examples/README.md", "python/zorvleid/output.py",
              "view/pages/chart.js"}
    tally.tell("the release, its files",
               None if packed <= listed else f"it lacks {sorted(packed - listed)}")


def check_readme(there: Path, tally: Tally) -> None:
    """The README names all that is packed at the top, and nothing that is not packed."""
    text = (there / "README.md").read_text(encoding="utf-8")
    found = re.findall(r"(?:`|\./|(?=examples/))([\w/]+(?:\.\w+)*)", text)
    paths = sorted({name for name in found if "/" in name or "." in name})
    lost = [name for name in paths if not (there / name).exists()]
    tally.tell("the README of the release, its paths",
               f"{lost} are not packed" if lost else None if paths else "it has none")
    named = re.findall(r"[\w.]+", " ".join(re.findall(r"^\| (.*?) \|", text, re.MULTILINE)))
    silent = [path.name for path in there.iterdir()
              if path.name not in (*named, "README.md", *MADE)]
    tally.tell("the README of the release, what is packed",
               f"it does not name {sorted(silent)}" if silent else None)
    strange = [word for word in STRANGE if word in text]
    tally.tell("the README of the release, its words",
               f"it speaks of {strange}" if strange else None)


def check_links(there: Path, tally: Tally) -> None:
    """Each link of an unpacked document leads to an unpacked file; lost links leave their texts."""
    count = 0
    for document in sorted(there.rglob("*.md")):
        for target in LINK.findall(document.read_text(encoding="utf-8")):
            count += 1
            is_there = (document.parent / target).exists()
            tally.tell(f"the release, {document.relative_to(there)}: {target}",
                       None if is_there else "it is not packed")
    tally.tell("the release, its links", None if count > 9 else f"there are {count}")
