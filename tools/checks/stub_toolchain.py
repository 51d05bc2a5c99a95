"""A small repository with the real tools/build, and a stub for the toolchain.

The stub keeps others out of the folders of its crate and of those below, as the toolchain does, but
fails if that would wait. It fails too if a library below is missing. It makes its own library in
two steps, with a rest between them, and keeps work unless it is to write statements alone. The
crates of STUB_TOGETHER rest until all of them have begun, for a while. STUB_FAULT is CRATE:FAULT.
"""

import contextlib
import os
import shutil
import subprocess
import sys
import tempfile
import time
from collections.abc import Iterator
from dataclasses import dataclass
from pathlib import Path

from tools.building import crates

# The libraries of each crate, and its seconds. Longest chain: base, long, middle, script_main.
CRATES = {
    "base": ("", 10),
    "one": ("base", 20),
    "two": ("base", 10),
    "long": ("base", 30),
    "middle": ("long", 40),
    "aside": ("base", 90),
    "script_main": ("one two middle", 10),
}
MADE_OF = sorted(set(CRATES) - {"aside"})

STUB = r"""#!{python} -S
import fcntl, os, sys, time
verb, crate = sys.argv[1], os.path.basename(os.getcwd())
if verb == "version":
    print("a toolchain")
    sys.exit(0)
def log(*words):
    with open("{log}", "a") as file:
        print(*words, file=file)
if verb == "must-fail":
    folder = "crates/" + sys.argv[2]
    log("tried", sys.argv[2], 0, 0, os.path.exists(folder + "/out/incremental/kept"))
    sys.exit(int("let_through.edit" in os.listdir(folder + "/must-fail")))
rows = [line.partition(":") for line in open("../../crates.txt")]
for name in sorted(row[0].split()[0] for row in rows):
    fcntl.flock(os.open("../" + name, os.O_RDONLY), fcntl.LOCK_EX | fcntl.LOCK_NB)
    if name != crate and not os.path.exists("../" + name + "/out/rlib/stamp"):
        sys.exit("stub: " + name + " is missing")
sources = open("src/lib.rt").read()
stamp, rlib = "out/rlib/stamp", "out/rlib/" + crate + ".rlib"
if verb == "lib" and os.path.exists(stamp) and open(stamp).read() == sources:
    log("stands", crate)
    sys.exit(0)
had_kept = os.path.exists("out/incremental/kept")
states = "ZORVLEID_STATEMENTS" in os.environ
if not states:
    os.makedirs("out/incremental", exist_ok=True)
    open("out/incremental/kept", "w").close()
log("begin", crate, sys.argv[3], os.getpid(), had_kept, states)
made = "out/" + crate if verb == "run" else rlib + "/format"
os.makedirs(rlib if verb == "lib" else "out", exist_ok=True)
open(made, "w").write("#!/bin/sh\nexit 2\n")
fault = os.environ.get("STUB_FAULT", "").split(":")
together = os.environ.get("STUB_TOGETHER", "").split()
for _ in range(600):
    begun = [line.split()[1] for line in open("{log}") if line.startswith("begin ")]
    time.sleep(0.05)
    if crate not in together or set(together) <= set(begun):
        break
if fault[0] == crate:
    if fault[1] == "rest":
        time.sleep(600)
    if fault[1] == "disk":
        with open("/dev/full", "w") as full:
            full.write("a proof")
    if fault[1] == "edit":
        open("{top}/crates/base/src/lib.rt", "a").write("edited\n")
    elif fault[1] == "killed":
        os.kill(os.getpid(), 9)
    else:
        print("what the stub says")
        sys.exit(int(fault[1]))
os.chmod(made, 0o755)
open("out/" + crate + ".stamp" if verb == "run" else stamp, "w").write(sources)
log("end", crate)
sys.exit(2 if verb == "run" else 0)
"""


@dataclass(frozen=True)
class Event:
    """A line of the stub's log: a crate begins, ends or stands, or its wrong bodies are tried."""

    kind: str
    crate: str
    jobs: int = 0
    process: int = 0
    had_kept: bool = False
    states: bool = False

    def goes_on(self) -> bool:
        """Whether the process that began is there, and has not ended unseen."""
        try:
            stat = Path(f"/proc/{self.process}/stat").read_text(encoding="utf-8")
        except OSError:
            return False
        return self.kind == "begin" and stat.rpartition(")")[2].split()[0] != "Z"


@dataclass(frozen=True)
class Place:
    """The repository, the stub's log, and the path by which the stub is found."""

    top: Path
    log: Path
    path: str

    def events(self, after: int = 0) -> list[Event]:
        lines = self.log.read_text(encoding="utf-8").splitlines() if self.log.exists() else []
        found = []
        for kind, crate, *more in map(str.split, lines[after:]):
            jobs, process = map(int, more[:2] or (0, 0))
            flags = [it == "True" for it in more[2:]]
            found.append(Event(kind, crate, jobs, process, *flags))
        return found

    def begun(self, after: int = 0) -> list[str]:
        return [it.crate for it in self.events(after) if it.kind == "begin"]

    def environment(self, **more: str) -> dict[str, str]:
        kept = {it: os.environ[it] for it in ("HOME", "TMPDIR", "LANG") if it in os.environ}
        return {**kept, "PATH": self.path, **more}

    def build(self, *words: str, **more: str) -> "subprocess.CompletedProcess[str]":
        """Runs tools/build with these words, and these variables beside its own."""
        return self.run("build", *words, **more)

    def run(self, tool: str, *words: str, **more: str) -> "subprocess.CompletedProcess[str]":
        return subprocess.run(
            [self.top / "tools" / tool, *words],
            capture_output=True,
            text=True,
            check=False,
            env=self.environment(**more),
            timeout=600,
        )

    def start(self, *words: str, **more: str) -> "subprocess.Popen[str]":
        """Starts a build that Ctrl-C ends, also in the background, where a check ignores it."""
        return subprocess.Popen(
            ["env", "--default-signal=INT", self.top / "tools/build", *words],
            stdout=subprocess.PIPE,
            stderr=subprocess.PIPE,
            text=True,
            env=self.environment(**more),
        )

    def out(self, crate: str, name: str) -> Path:
        return self.top / "crates" / crate / "out" / name

    def edit(self, crate: str) -> None:
        (self.top / "crates" / crate / "src/lib.rt").write_text("edited\n", encoding="utf-8")

    def add_body(self, crate: str, name: str) -> None:
        """Adds a wrong body, which the stub lets through if that is its name."""
        folder = self.top / "crates" / crate / "wrong-bodies"
        folder.mkdir(exist_ok=True)
        (folder / f"{name}.edit").write_text("file: src/lib.rt\n", encoding="utf-8")

    def keep(self, crate: str) -> None:
        """Leaves what a check keeps of a crate."""
        self.out(crate, "incremental").mkdir(parents=True)
        self.out(crate, "incremental/kept").touch()

    def await_begin(self, crate: str) -> None:
        for _ in range(2400):
            if crate in self.begun():
                return
            time.sleep(0.05)
        raise TimeoutError(f"{crate} has not begun after two minutes")

    def await_end(self) -> bool:
        """Waits until no proof goes on, for a while; gives whether that came."""
        for _ in range(600):
            if not any(it.goes_on() for it in self.events()):
                return True
            time.sleep(0.05)
        return False

    def left_over(self) -> str | None:
        """Remains that should be gone: a room, half a library, or a running proof."""
        for folder in sorted((self.top / "crates").glob("*/out")):
            if (folder / "room").exists():
                return f"the room of {folder.parent.name} is left"
            if (folder / "rlib").exists() and not (folder / "rlib/stamp").exists():
                return f"half a library of {folder.parent.name} is left"
        return next(
            (f"the proof of {it.crate} goes on" for it in self.events() if it.goes_on()), None
        )


def furnish(top: Path, made: Path) -> None:
    """Makes the repository in a folder, with the tools of the real one."""
    (made / "tools").mkdir(parents=True)
    for name in ("build", "prove_crates", "prove_crates.py", "wrong_bodies", "wrong_bodies.py",
                 "__init__.py", "places.py"):
        shutil.copy2(top / "tools" / name, made / "tools" / name)
    unwanted = shutil.ignore_patterns("__pycache__")
    shutil.copytree(top / "tools/building", made / "tools/building", ignore=unwanted)
    for crate in CRATES:
        for part in crates.SOURCES:
            (made / "crates" / crate / part).mkdir(parents=True)
        source = made / "crates" / crate / "src/lib.rt"
        source.write_text(f"the sources of {crate}\n", encoding="utf-8")
    (made / "HANDLES").write_text("Handles allowed: none.\n", encoding="utf-8")
    rows = "".join(f"{it}: {below}\n" for it, (below, _) in CRATES.items())
    (made / crates.LIST).write_text(rows, encoding="utf-8")
    times = {it: crates.Seconds(seconds) for it, (_, seconds) in CRATES.items()}
    crates.write_times(made / crates.TIMES, crates.libraries(made / crates.LIST), times)


@contextlib.contextmanager
def place(top: Path) -> Iterator[Place]:
    """A repository of its own, which is removed after use."""
    with tempfile.TemporaryDirectory() as folder:
        made, tools, log = (Path(folder) / it for it in ("copy", "bin", "log"))
        furnish(top, made)
        tools.mkdir()
        stub = STUB.replace("{python}", sys.executable)
        stub = stub.replace("{log}", str(log)).replace("{top}", str(made))
        (tools / "rt").write_text(stub, encoding="utf-8")
        (tools / "rt").chmod(0o755)
        (tools / "python3").symlink_to(sys.executable)
        yield Place(made, log, f"{tools}:/usr/bin:/bin")


def at_once(events: list[Event]) -> int:
    """The greatest number of proofs that went on at one time."""
    running = most = 0
    for it in events:
        running += {"begin": 1, "end": -1}.get(it.kind, 0)
        most = max(most, running)
    return most
