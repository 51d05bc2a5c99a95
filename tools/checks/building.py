"""tools/build with a stub for the toolchain: the order of the proofs, and what faults leave."""

import contextlib
import os
import pty
import re
import shutil
import signal
import subprocess
import sys
from pathlib import Path

from tools.building.plan import lanes
from .stub_toolchain import MADE_OF, Place, at_once, place
from .tally import Tally

GIGABYTE = 1_000_000_000
# What a build reads first, so that there is no room for the files of one crate.
FULL_DISK = """
import errno, os, shutil
copytree = shutil.copytree
def until_full(one, other, *words, **how):
    if "crates/long/out" in str(other):
        os.makedirs(other)
        raise OSError(errno.ENOSPC, os.strerror(errno.ENOSPC), str(other))
    return copytree(one, other, *words, **how)
shutil.copytree = until_full
"""
# A machine's processors and its free GB, and then how many crates are proved at once.
MACHINES = ((2, 7.2, 2), (4, 7.2, 3), (8, 3.5, 1), (8, 1.5, 1), (4, 21, 4), (1, 21, 1))
# The one line of a build that nobody watches.
FIRST = re.compile(
    r"proving \d of 6 crates and building the program: about \d+ min on \d+ processors?, "
    r"\d+ crates? at once; ZORVLEID_PROGRESS=1 shows how far it is; "
    r"for a look before, './zorvleid preview run FILE' takes two minutes"
)
FAULTS = {
    "1": "is not proved",
    "2": "judged nothing",
    "3": "could not tell",
    "killed": "killed, most likely for memory (try --jobs 1)",
    "disk": "the disk is full",
}


def unlike(wanted: object, got: object) -> str | None:
    return None if wanted == got else f"{wanted!r} is wanted, and it is {got!r}"


def one_line(ran: "subprocess.CompletedProcess[str]", status: int, *words: str) -> str | None:
    """A fault unless a build ended with this status and printed only one line with these words."""
    is_so = (ran.returncode, ran.stdout, ran.stderr.count("\n")) == (status, "", 1)
    return None if is_so and all(it in ran.stderr for it in words) else f"it ended with {ran}"


def silent(ran: "subprocess.CompletedProcess[str]", status: int = 0) -> str | None:
    return unlike((status, "", ""), (ran.returncode, ran.stdout, ran.stderr))


def begun(ran: "subprocess.CompletedProcess[str]") -> "subprocess.CompletedProcess[str]":
    """A build without its first line, which says what is proved, how long that takes, and more."""
    first, _, rest = ran.stderr.partition("\n")
    said = rest if FIRST.fullmatch(first) else f"no first line, but: {ran.stderr}\n"
    return subprocess.CompletedProcess(ran.args, ran.returncode, ran.stdout, said)


def built(ran: "subprocess.CompletedProcess[str]") -> str | None:
    """A fault unless a build printed its first line alone."""
    return silent(begun(ran))


def failed(ran: "subprocess.CompletedProcess[str]", status: int, *words: str) -> str | None:
    """A fault unless a build printed its first line, and then one with these words."""
    return one_line(begun(ran), status, *words)


def check_order(top: Path, tally: Tally) -> None:
    """The longest chain comes first, and what has changed, with all above it, is proved again."""
    with place(top) as it:
        tally.tell("--fresh before a build", silent(it.build("--fresh"), 1))
        tally.tell("a build", built(it.build("--jobs", "1")))
        order = ["base", "long", "middle", "one", "two", "script_main"]
        tally.tell("the order of proofs", unlike(order, it.begun()))
        jobs = {event.jobs for event in it.events() if event.kind == "begin"}
        tally.tell("one job", unlike((1, {1}), (at_once(it.events()), jobs)))
        tally.tell("after a build", it.left_over())
        tally.tell("--fresh after a build", silent(it.build("--fresh")))
        count = len(it.events())
        tally.tell("a second build", silent(it.build()) or unlike([], it.begun(count)))
        os.utime(it.top / "crates/one/src/lib.rt")
        tally.tell("a source that was touched", built(it.build()))
        it.edit("middle")
        tally.tell("a source that was edited", built(it.build()))
        again = ["script_main", "middle", "script_main"]
        tally.tell("what is proved again", unlike(again, it.begun(count)))


def check_statements(top: Path, tally: Tally) -> None:
    """Libraries hold statements alone, but for those of which a check kept work."""
    with place(top) as it:
        it.keep("middle")
        it.build()
        begun = [event for event in it.events() if event.kind == "begin"]
        whole = sorted(event.crate for event in begun if not event.states)
        tally.tell("what is built whole", unlike(["middle", "script_main"], whole))
        kept = it.out("long", "incremental").exists()
        tally.tell("what is kept of statements", unlike(False, kept))
        count = len(it.events())
        shutil.rmtree(it.out("long", "rlib"))
        it.edit("one")
        it.build()
        again = ["long", "middle", "one", "script_main"]
        tally.tell("what stands on a lost library", unlike(again, sorted(it.begun(count))))


def check_lines(top: Path, tally: Tally) -> None:
    """Three crates go at once, with a line for each that begins and ends."""
    with place(top) as it:
        ran = it.build("--jobs", "3", STUB_TOGETHER="long one two", ZORVLEID_PROGRESS="1")
        found = ran.returncode, at_once(it.events()), sorted(it.begun())
        tally.tell("three crates at once", unlike((0, 3, MADE_OF), found))
        first, *lines = ran.stderr.splitlines() or [""]
        for words in (" begins, jobs: ", " is proved, after "):
            names = sorted(line.split()[0] for line in lines if words in line)
            tally.tell(f"the lines '{words}'", unlike(MADE_OF, names))
        tally.tell("the count of lines", unlike(2 * len(MADE_OF) + 1, len(lines)))
        wanted = ("proving 6 of 6 crates", ": about ", " min on ", "3 crates at once")
        is_said = all(words in first for words in wanted)
        tally.tell("how long it takes", None if is_said else f"it says {first!r} at first")


def check_machines(top: Path, tally: Tally) -> None:
    """No more crates go at once than there are processors and memory for."""
    two = sorted(os.sched_getaffinity(0))[:2]
    keep = f"import os, sys; os.sched_setaffinity(0, {two}); os.execv(sys.argv[1], sys.argv[1:])"
    with place(top) as it:
        words = [sys.executable, "-c", keep, str(it.top / "tools/build")]
        ran = subprocess.run(words, env=it.environment(), capture_output=True, check=False)
        jobs = max((event.jobs for event in it.events() if event.kind == "begin"), default=9)
        is_so = ran.returncode == 0 and max(at_once(it.events()), jobs) <= len(two)
        found = f"{at_once(it.events())} go at once, with {jobs} jobs; {ran}"
        tally.tell("a build on two processors", None if is_so else found)
    for processors, free, wanted in MACHINES:
        of = lanes(processors, int(free * GIGABYTE))
        name = f"{processors} processors and {free} GB"
        tally.tell(f"crates at once, {name}", unlike(wanted, of.crates))
        tally.tell(f"jobs of a crate, {name}", unlike(min(4, processors), of.jobs))
        used = 2 * of.crates + 1.5 * of.further
        tally.tell(f"memory, {name}", None if used <= max(2, free) else f"{used} GB may be used")


def check_stops(top: Path, tally: Tally) -> None:
    """A build that is stopped ends with one line, and the next one goes on from there."""
    stops = ((signal.SIGINT, 130, True), (signal.SIGTERM, 143, False), (signal.SIGKILL, -9, True))
    for number, status, keeps in stops:
        with place(top) as it:
            stop(it, number, status, keeps, tally)


def stop(it: Place, number: signal.Signals, status: int, keeps: bool, tally: Tally) -> None:
    """Stops a build while the second crate is proved, and builds again.

    That crate goes on where a check had kept work of it, and else begins anew.
    """
    if keeps:
        it.keep("long")
    with it.start("--jobs", "2", STUB_FAULT="long:rest") as first:
        it.await_begin("long")
        first.send_signal(number)
        ran = subprocess.CompletedProcess([], 0, *first.communicate(timeout=120))
        ran.returncode = first.returncode
    name = number.name
    if number == signal.SIGKILL:
        tally.tell(f"a build under {name}", silent(begun(ran), status))
        tally.tell(f"proofs after {name}", None if it.await_end() else "they go on")
    else:
        said = failed(ran, status, "interrupted", "goes on from there")
        tally.tell(f"a build under {name}", said)
        logs = sorted((it.top / "crates").glob("*/out/build.log"))
        tally.tell(f"what {name} leaves", it.left_over() or unlike([], logs))
        kept = it.out("long", "incremental/kept").exists()
        tally.tell(f"what the proof has kept at {name}", unlike(keeps, kept))
    count = len(it.events())
    tally.tell(f"the build after {name}", built(it.build()) or it.left_over())
    tally.tell(f"what is proved after {name}", unlike(False, "base" in it.begun(count)))
    kept = any(event.had_kept for event in it.events(count) if event.crate == "long")
    tally.tell(f"what was kept at {name} is used", unlike(keeps, kept))


def check_faults(top: Path, tally: Tally) -> None:
    """A build that fails ends with one line, which names the log, and leaves no half library."""
    log = Path("crates/long/out/build.log")
    for fault, words in FAULTS.items():
        with place(top) as it:
            ran = it.build("--jobs", "1", STUB_FAULT=f"long:{fault}")
            tally.tell(
                f"fault {fault}", failed(ran, 126, "long", str(log), "1 of 6 crates", words)
            )
            said = (it.top / log).read_text() if (it.top / log).exists() else "no log"
            wanted = {"killed": "", "disk": "No space left on device"}.get(
                fault, "what the stub says"
            )
            tally.tell(f"the log of fault {fault}", None if wanted in said else f"it has {said!r}")
            found = (
                it.out("base", "rlib/stamp").exists(),
                it.out("long", "rlib").exists(),
                it.begun(),
            )
            left = it.left_over() or unlike((True, False, ["base", "long"]), found)
            tally.tell(f"what fault {fault} leaves", left)
            if fault == "disk":
                tally.tell("the build after that", built(it.build()))
                tally.tell("the log after that", unlike(False, (it.top / log).exists()))
    with place(top) as it:
        (it.top / "sitecustomize.py").write_text(FULL_DISK)
        ran = it.build("--jobs", "1", PYTHONPATH=str(it.top))
        tally.tell("a disk that is full before a proof", failed(ran, 126, "the disk is full"))
        tally.tell("what that leaves", it.left_over() or unlike(["base"], it.begun()))
        tally.tell("the build after a full disk", built(it.build()))


def check_edits(top: Path, tally: Tally) -> None:
    """A built library stays where an edit is not proved; an edit during a build makes it old."""
    with place(top) as it:
        it.build()
        it.edit("long")
        ran = it.build("--jobs", "2", STUB_FAULT="long:1")
        tally.tell("an edit that is not proved", failed(ran, 126, "long is not proved"))
        stands = it.out("long", "rlib/stamp").read_text()
        tally.tell("what it leaves", it.left_over() or unlike("the sources of long\n", stands))
        ran = it.build(STUB_FAULT="script_main:1")
        tally.tell("a program that is not proved", failed(ran, 126, "script_main is not proved"))
        is_there = it.out("script_main", "script_main").exists()
        tally.tell("the program of before", unlike(True, is_there))
    with place(top) as it:
        ran = it.build(STUB_FAULT="long:edit")
        tally.tell("an edit while it builds", failed(ran, 126, "no program that is newer"))


def check_wrong_bodies(top: Path, tally: Tally) -> None:
    """tools/wrong_bodies tries them over what is built and kept, and leaves that as it was."""
    with place(top) as it:
        it.add_body("middle", "refused")
        ran = it.run("wrong_bodies")
        tally.tell("wrong bodies before a build", one_line(ran, 126, "run tools/build first: base"))
        it.build()
        it.out("middle", "incremental").mkdir(exist_ok=True)
        it.out("middle", "incremental/kept").touch()
        count = len(it.events())
        ran = it.run("wrong_bodies")
        tally.tell("a wrong body that is refused", unlike((0, ""), (ran.returncode, ran.stderr)))
        tried = [(event.kind, event.crate, event.had_kept) for event in it.events(count)]
        tally.tell("what it begins with", unlike([("tried", "middle", True)], tried))
        stands = it.out("middle", "incremental/kept").exists()
        tally.tell("what it leaves", it.left_over() or unlike(True, stands))
        it.add_body("one", "let_through")
        ran = it.run("wrong_bodies")
        is_so = ran.returncode == 1 and ran.stdout.endswith("not all are refused in one\n")
        tally.tell("a wrong body that is let through", None if is_so else f"it ended with {ran}")
        tally.tell("a crate of none", one_line(it.run("wrong_bodies", "two"), 2, "two", "middle"))


def check_words(top: Path, tally: Tally) -> None:
    with place(top) as it:
        for words in (("--frsh",), ("--jobs", "0"), ("--jobs", "x"), ("--jobs",)):
            tally.tell(f"the words {words}", one_line(it.build(*words), 2, "tools/build"))
        tally.tell("what wrong words build", unlike([], it.begun()))
        stub = Path(it.path.partition(":")[0]) / "rt"
        stub.rename(stub.with_name("not_rt"))
        tally.tell("no toolchain", one_line(it.build(), 127, "the toolchain (rt) is missing"))
        stub.with_name("not_rt").rename(stub)
        old = stub.with_name("python3")
        old.unlink()
        old.write_text("#!/bin/sh\nexit 1\n")
        old.chmod(0o755)
        tally.tell("an old python3", one_line(it.build(), 127, "python3 is missing or older"))


def check_two(top: Path, tally: Tally) -> None:
    """Two builds at once prove each crate once."""
    with place(top) as it:
        both = it.start(), it.start()
        found = [(*ran.communicate(timeout=600), ran.returncode) for ran in both]
        said = [subprocess.CompletedProcess([], status, out, told) for out, told, status in found]
        one, other = sorted(said, key=lambda ran: len(ran.stderr))
        tally.tell("two builds at once", silent(one) or built(other))
        tally.tell("what they prove", unlike(MADE_OF, sorted(it.begun())))


def check_terminal(top: Path, tally: Tally) -> None:
    """A terminal has one line that is written anew, between the first line and the last."""
    with place(top) as it:
        ours, theirs = pty.openpty()
        words = [str(it.top / "tools/build"), "--jobs", "2"]
        where = it.environment()
        with subprocess.Popen(words, stdin=subprocess.DEVNULL, stderr=theirs, env=where) as ran:
            os.close(theirs)
            shown = b""
            with contextlib.suppress(OSError):
                while more := os.read(ours, 4096):
                    shown += more
            os.close(ours)
        text = shown.decode()
        line = re.search(r"\r1 of 6 done, about \d+ min left: long 0:\d\d, one 0:\d\d", text)
        is_so = line is not None and " begins" not in text
        is_so = is_so and ran.returncode == 0 and text.count("\n") == 2
        tally.tell("a build on a terminal", None if is_so else f"it shows {text!r}")


PARTS = (
    check_order,
    check_statements,
    check_lines,
    check_machines,
    check_stops,
    check_faults,
    check_edits,
    check_wrong_bodies,
    check_words,
    check_two,
    check_terminal,
)


def check(top: Path, program: Path, tally: Tally) -> None:
    """Reports each way in which a build differs from the head of tools/build."""
    for part in PARTS:
        try:
            part(top, tally)
        except (subprocess.TimeoutExpired, TimeoutError) as error:
            tally.tell(part.__name__, str(error))
