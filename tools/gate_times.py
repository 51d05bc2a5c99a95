"""Shows where the time of the gate goes.

    tools/gate_times --run LOG               runs `rt ci` at the top, and writes LOG
    tools/gate_times --run LOG -- WORD..     the same with another command, and with its status
    tools/gate_times LOG                     prints the table of a log; --crates FILE gives its
                                             chain another crates.txt
    tools/gate_times LOG --keep              the same, and writes its seconds to the file by which
                                             tools/build orders crates: tools/crate_times.tsv
    tools/gate_times --expect                says in one line how long the gate takes here
    tools/gate_times --lanes                 prints how many checks memory holds here at once, at
                                             most one a processor: RT_JOBS for `rt ci`
    tools/gate_times --above                 prints what stands on each crate, the most first: how
                                             many crates, and the seconds of their proofs

Each line of LOG comes after the seconds since the start. The tool also watches the processes of the
prover. Each one that has ended leaves a line `@ CRATE PART KEY BEGAN ENDED CPU`. PART is `proof`,
`tests` (the proof of the tests), `seed` (a check of the crate as it stands, before or after its
edits) or `edit` (the try of a wrong body). KEY distinguishes the checks, BEGAN and ENDED are
seconds since the start, and CPU is seconds of a processor. A process that lives for less than half
a second may be missed.

The table has a line a crate, the most costly first. It has the seconds of the crate's proof, of the
proof of its tests, and of its edits with their number, each by the clock and of a processor. Checks
run side by side, so seconds by the clock add to more than the whole took. The last part is the
chain of crates, each on the one before, whose proofs take most of a processor. It says how much
shorter the longest chain would be if one of them took no time.
"""

import argparse
import os
import re
import subprocess
import sys
import threading
import time
from collections import defaultdict
from collections.abc import Iterator, Mapping, Sequence
from dataclasses import replace
from pathlib import Path
from typing import NamedTuple

from tools.building import crates, machine
from tools.building.plan import A_CHECK, expected, lanes
from tools.building.telling import minutes
from tools.places import TOP

GATE = ["rt", "ci"]
EVERY = 0.5
TICKS = os.sysconf("SC_CLK_TCK")
PARTS = crates.PARTS

LINE = re.compile(r"(\d+\.\d) (.*)")
CHECK = re.compile(r"@ (\w+) (proof|tests|seed|edit) (\S+) (\S+) (\S+) (\S+)")
EDIT = re.compile(r"rt: must-fail (\w+)/\S+: ")
END = re.compile(r"\d+ passed, \d+ failed")

Used = Mapping[tuple[str, str], float]  # the seconds of a crate's part


class Process(NamedTuple):
    """A process's parent, when it began, and the seconds of a processor that it used."""

    parent: int
    began: float
    used: float


class Part(NamedTuple):
    """The subject of a check: the crate, the part, and a key that distinguishes the checks."""

    crate: str
    part: str
    key: str


class Span(NamedTuple):
    """When a process of a check began and ended, and the seconds of a processor that it used."""

    began: float
    ended: float
    used: float


# --- Watching a run ---


def now() -> float:
    """Seconds on the clock by which the system dates the begin of a process."""
    return time.clock_gettime(time.CLOCK_BOOTTIME)


def processes() -> dict[int, Process]:
    """Each process by its number."""
    found = {}
    for name in os.listdir("/proc"):
        if name.isdigit():
            try:
                text = Path(f"/proc/{name}/stat").read_text(encoding="utf-8", errors="replace")
            except OSError:
                continue
            words = text.rpartition(")")[2].split()
            used = (int(words[11]) + int(words[12])) / TICKS
            found[int(name)] = Process(int(words[1]), int(words[19]) / TICKS, used)
    return found


def is_below(number: int, root: int, every: Mapping[int, Process]) -> bool:
    """Whether a process descends from another."""
    while number in every and number != root:
        number = every[number].parent
    return number == root


def part_of(words: list[str], folder: Path) -> Part | None:
    """The subject of a check with these words in this folder, or None for other words."""
    is_check = os.path.basename(words[0]) == "rattle" and words[1:2] in (["check"], ["build"])
    if not is_check or "--crate-name" not in words:
        return None
    crate = words[words.index("--crate-name") + 1]
    if not folder.name.startswith("rt-edit-"):
        return Part(crate, "tests" if "--test" in words else "proof", "-")
    kept = words[words.index("--incremental") + 1] if "--incremental" in words else ""
    return Part(crate, "seed" if kept.endswith("/seed") else "edit", folder.name)


def part_of_process(number: int) -> Part | None:
    try:
        line = Path(f"/proc/{number}/cmdline").read_text(encoding="utf-8", errors="replace")
        return part_of(line.split("\0"), Path(os.readlink(f"/proc/{number}/cwd")))
    except OSError:
        return None


class Log:
    """A file of lines after the seconds since it was begun."""

    def __init__(self, path: Path) -> None:
        self.file = path.open("w", encoding="utf-8", errors="replace")
        self.lock = threading.Lock()
        self.began = now()

    def write(self, text: str) -> None:
        with self.lock:
            self.file.write(f"{now() - self.began:.1f} {text}\n")
            self.file.flush()

    def tell_check(self, part: Part, span: Span) -> None:
        began, ended = span.began - self.began, span.ended - self.began
        self.write(f"@ {' '.join(part)} {began:.1f} {ended:.1f} {span.used:.1f}")


def watch(root: int, log: Log, is_over: threading.Event) -> None:
    """Writes each check below a process to the log once it has ended, until all is over."""
    seen: dict[tuple[int, float], Span] = {}
    parts: dict[tuple[int, float], Part] = {}
    while True:
        last = is_over.wait(EVERY)
        every = {} if last else processes()
        for it in [it for it in seen if it[0] not in every or every[it[0]].began != it[1]]:
            log.tell_check(parts.pop(it), seen.pop(it))
        if last:
            return
        for number, (_, began, used) in every.items():
            it = number, began
            if it not in parts and is_below(number, root, every):
                part = part_of_process(number)
                if part:
                    parts[it] = part
            if it in parts:
                seen[it] = Span(began, now(), used)


def run(command: list[str], path: Path) -> int:
    """Runs a command at the top of the repository, writes its log, and gives its status."""
    log, is_over = Log(path), threading.Event()
    log.write(" ".join(command))
    with subprocess.Popen(
        command,
        cwd=TOP,
        stdin=subprocess.DEVNULL,
        stdout=subprocess.PIPE,
        stderr=subprocess.STDOUT,
        errors="replace",
        # Without a buffer each line comes when it is written.
        env={**os.environ, "PYTHONUNBUFFERED": "1"},
    ) as ran:
        watcher = threading.Thread(target=watch, args=(ran.pid, log, is_over))
        watcher.start()
        try:
            for line in ran.stdout or ():
                log.write(line.rstrip("\n"))
        finally:
            is_over.set()
            watcher.join()
    return ran.returncode


# --- The table ---


class Times:
    """The facts of a log: its seconds, its end, and the seconds and the edits of each crate."""

    def __init__(self, text: str) -> None:
        self.seconds, self.end = 0.0, "it has not ended"
        self.edits: dict[str, int] = defaultdict(int)
        self.clock: dict[tuple[str, str], float] = defaultdict(float)
        self.used: dict[tuple[str, str], float] = defaultdict(float)
        checks: dict[Part, list[Span]] = defaultdict(list)
        told = False
        for seconds, said in LINE.findall(text):
            self.seconds = float(seconds)
            check, edit = CHECK.fullmatch(said), EDIT.match(said)
            if check:
                checks[Part(*check.group(1, 2, 3))].append(Span(*map(float, check.group(4, 5, 6))))
            elif edit:
                self.edits[edit[1]], told = self.edits[edit[1]] + 1, True
            elif END.match(said):
                self.end = said
        for part, spans in checks.items():
            self.add(part, spans, not told)

    def add(self, of: Part, spans: list[Span], is_counted: bool) -> None:
        """Adds a check. Edits are counted by their checks until each has a line."""
        self.edits[of.crate] += is_counted and of.part == "edit"
        part = of.part if of.part in PARTS else "edits"
        self.clock[of.crate, part] += covered(spans)
        self.used[of.crate, part] += sum(it.used for it in spans)

    def crates(self) -> list[str]:
        """The crates, the most costly first."""
        names = {crate for crate, _ in self.clock}
        return sorted(names, key=lambda it: (-sum(self.used[it, part] for part in PARTS), it))


def covered(spans: list[Span]) -> float:
    """The seconds that lie in at least one of the spans: a check may have several processes."""
    seconds, until = 0.0, 0.0
    for began, ended, _ in sorted(spans):
        seconds += max(0.0, ended - max(began, until))
        until = max(until, ended)
    return seconds


def chain_lines(used: Used, below: crates.Libraries) -> Iterator[str]:
    """The chain of crates whose proofs take longest, and what each of its crates could save."""
    seconds = {crate: took for (crate, part), took in used.items() if part == "proof"}

    def length(of: Mapping[str, float]) -> float:
        return sum(of.get(it, 0.0) for it in crates.longest_chain(below, of))

    whole, every = length(seconds), sum(seconds.values())
    yield f"longest chain of proofs: {whole:.0f} s of a processor, of {every:.0f} s in all"
    for crate in crates.longest_chain(below, seconds):
        took = seconds.get(crate, 0.0)
        yield f"  {crate:<18}{took:>6.0f}   saves {whole - length({**seconds, crate: 0.0}):.0f}"


def row(name: str, numbers: Sequence[float], count: int) -> str:
    """A line of the table: the two numbers of each part, the count of edits, and the sums."""
    *rest, edits, used = [f"{it:.0f}" for it in numbers]
    both = [f"{sum(numbers[at::2]):.0f}" for at in (0, 1)]
    cells = [*rest, str(count), edits, used, *both]
    return f"{name:<18}" + "".join(f"{it:>8}" for it in cells)


def table(times: Times, below: crates.Libraries) -> list[str]:
    """The lines of the table of a log."""
    heads = ("proof", "cpu", "tests", "cpu", "edits", "time", "cpu", "all", "cpu")
    lines = [f"{'crate':<18}" + "".join(f"{it:>8}" for it in heads)]
    both = times.clock, times.used
    numbers = {it: [of[it, part] for part in PARTS for of in both] for it in times.crates()}
    lines += [row(it, numbers[it], times.edits.get(it, 0)) for it in numbers]
    sums = [sum(column) for column in zip(*numbers.values())] or [0.0] * 6
    lines.append(row("sum", sums, sum(times.edits.values())))
    lines += ["", *chain_lines(times.used, below)]
    busy = sum(sums[1::2]) / times.seconds if times.seconds else 0.0
    whole = f"{times.seconds:.0f} s ({times.seconds / 60:.0f} min)"
    lines.append(f"whole run: {whole}, {busy:.1f} processors in use; {times.end}")
    return lines


def keep(times: Times, below: crates.Libraries) -> None:
    """Writes the seconds of a log to the file of times; what the log lacks stays as it was."""
    rows = crates.read_times(TOP / crates.TIMES)
    measured = {part for (_, part), took in times.used.items() if took}
    for crate in [it for it in below if times.used.get((it, "proof"))]:
        new = {it: times.used.get((crate, it), 0.0) for it in measured}
        rows[crate] = replace(rows.get(crate, crates.Seconds(0.0)), **new)
    crates.write_times(TOP / crates.TIMES, below, rows)


def expected_seconds(below: crates.Libraries) -> dict[str, crates.Seconds]:
    """The seconds of each crate by the file of times, which may lack some."""
    times = crates.read_times(TOP / crates.TIMES)
    return {it: times.get(it, crates.Seconds(crates.UNKNOWN)) for it in below}


def above_lines() -> Iterator[str]:
    """What an edit of each crate proves again beside the crate itself, the most first."""
    below = crates.libraries(TOP / crates.LIST)
    seconds = expected_seconds(below)
    rows = [
        (sum(seconds[it].proof for it in above), len(above), crate)
        for crate, above in crates.above(below).items()
    ]
    yield f"{'crate':<18}{'crates':>8}{'seconds':>9}"
    for took, count, crate in sorted(rows, key=lambda it: -it[0]):
        yield f"{crate:<18}{count:>8}{took:>9.0f}"


def expectation() -> str:
    """How long the gate takes here from nothing, in one line."""
    below = crates.libraries(TOP / crates.LIST)
    seconds = expected_seconds(below)
    proofs = {it: of.proof for it, of in seconds.items()}
    chain = sum(proofs[it] for it in crates.longest_chain(below, proofs))
    processors = machine.processors()
    work = sum(it.in_the_gate() for it in seconds.values())
    took = expected(work, chain, lanes(processors, machine.free_memory(), each=A_CHECK))
    return f"the gate takes about {minutes(took)} on {processors} processors"


def main() -> int:
    cut = sys.argv.index("--") if "--" in sys.argv else len(sys.argv)
    parser = argparse.ArgumentParser(
        prog="tools/gate_times", description="Tells where the time of the gate goes."
    )
    add = parser.add_argument
    add("log", type=Path, nargs="?", help="the log, which --run writes")
    add("--run", action="store_true", help="run `rt ci`, or the command after --")
    add("--crates", type=Path, default=TOP / crates.LIST, help="the crates.txt of the run")
    add("--keep", action="store_true", help=f"write the seconds of the log to {crates.TIMES}")
    add("--expect", action="store_true", help="say how long the gate takes here")
    add("--lanes", action="store_true", help="print how many checks memory holds at once")
    add("--above", action="store_true", help="print what stands on each crate")
    asked = parser.parse_args(sys.argv[1:cut])
    told = asked.expect + asked.lanes + asked.above
    if (asked.log is not None) + told != 1 or asked.keep and asked.run:
        parser.error("give a log or one thing to print, and --keep only with a log that stands")
    try:
        if asked.lanes:
            print(lanes(machine.processors(), machine.free_memory(), each=A_CHECK).crates)
            return 0
        if not asked.log:
            print(expectation() if asked.expect else "\n".join(above_lines()))
            return 0
        if asked.run:
            return run(sys.argv[cut + 1 :] or GATE, asked.log)
        times = Times(asked.log.read_text(encoding="utf-8", errors="replace"))
        below = crates.libraries(asked.crates)
        print("\n".join(table(times, below)))
        if asked.keep:
            keep(times, below)
    except OSError as error:
        parser.error(str(error))
    return 0


if __name__ == "__main__":
    sys.exit(main())
