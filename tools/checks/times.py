"""tools/gate_times on a log of few crates: the chain, what it could save, and the file of times.

The longest chain is low, left, top, with 10 + 50 + 5 seconds of a processor. Were left to take
none, right would be on it, with 20.
"""

import os
import re
import shutil
import subprocess
import tempfile
from pathlib import Path

from .tally import Tally

LIST = "low: byteorder\nleft may_wait=1: low\nright: low\ntop: left right\naside: low\n"
LOG = """0.0 rt ci
1.0 @ low proof - 0.0 30.0 10.0
2.0 @ left proof - 30.0 60.0 40.0
3.0 @ left proof - 30.0 60.0 10.0
4.0 @ right proof - 30.0 90.0 20.0
5.0 @ right tests - 30.0 90.0 33.0
6.0 @ top proof - 90.0 95.0 5.0
7.0 @ right edit rt-edit-1 90.0 95.0 4.0
8.0 rt: must-fail right/one.edit: refused, as it must be
95.0 4 passed, 0 failed
"""
CHAIN = """longest chain of proofs: 65 s of a processor, of 85 s in all
  low                   10   saves 10
  left                  50   saves 30
  top                    5   saves 5
whole run: 95 s (2 min), 1.3 processors in use; 4 passed, 0 failed
"""
# left and right have top alone above them, and low has all.
ABOVE = """crate               crates  seconds
low                      4       82
left                     1        5
right                    1        5
top                      0        0
aside                    0        0
"""
HEAD = "crate\tproof\ttests\tedits\n"
TIMES = HEAD + "low\t1\t2\t-\naside\t7\t-\t-\ngone\t7\t7\t7\n"
# The seconds that are kept of the log; a log of a build measures no tests and no edits.
KEPT = HEAD + "low\t10\t0\t0\nleft\t50\t0\t0\nright\t20\t33\t4\ntop\t5\t0\t0\naside\t7\t-\t-\n"
BUILT = HEAD + "low\t10\t2\t-\nleft\t50\t-\t-\nright\t20\t-\t-\ntop\t5\t-\t-\naside\t7\t-\t-\n"
LOG_OF_A_BUILD = "".join(it for it in LOG.splitlines(True) if not re.search("tests|edit", it))


def check(top: Path, program: Path, tally: Tally) -> None:
    """Reports each way in which the tool's lines differ from the log."""
    with tempfile.TemporaryDirectory() as folder:
        copy, log = Path(folder) / "copy", Path(folder) / "log"
        (copy / "tools").mkdir(parents=True)
        for name in ("gate_times", "gate_times.py", "__init__.py", "places.py"):
            shutil.copy2(top / "tools" / name, copy / "tools")
        shutil.copytree(
            top / "tools/building",
            copy / "tools/building",
            ignore=shutil.ignore_patterns("__pycache__"),
        )
        (copy / "crates.txt").write_text(LIST)
        times = copy / "tools/crate_times.tsv"

        def of(*words: object) -> "subprocess.CompletedProcess[str]":
            return subprocess.run(
                [copy / "tools/gate_times", *map(str, words)],
                capture_output=True,
                text=True,
                check=False,
            )

        def tell(name: str, is_so: bool, found: object) -> None:
            tally.tell(f"tools/gate_times: {name}", None if is_so else f"it is {found}")

        log.write_text(LOG)
        ran = of(log)
        tell("the chain of a log", ran.returncode == 0 and ran.stdout.endswith("\n\n" + CHAIN), ran)
        tell("a table alone writes nothing", not times.exists(), "written")
        logs = (("a gate", LOG, KEPT), ("a build", LOG_OF_A_BUILD, BUILT))
        for name, text, kept in logs:
            times.write_text(TIMES)
            log.write_text(text)
            ran = of(log, "--keep")
            tell(
                f"the times of {name}",
                (ran.returncode, times.read_text()) == (0, kept),
                (ran, times.read_text()),
            )
        says = ("sh", "-c", "echo 3 passed, 0 failed; exit 7")
        ran = of("--run", log, "--", *says)
        lines = [it.partition(" ")[2] for it in log.read_text().splitlines()]
        is_so = (ran.returncode, lines) == (7, [" ".join(says), "3 passed, 0 failed"])
        tell("a run", is_so, (ran, lines))
        times.write_text(KEPT)
        ran = of("--expect")
        said = re.fullmatch(
            r"the gate takes about [1-3] min on \d+ processors\n",
            ran.stdout,
        )
        tell("how long a gate takes", ran.returncode == 0 and said is not None, ran)
        ran = of("--lanes")
        count = ran.stdout.strip()
        is_so = count.isdigit() and 1 <= int(count) <= len(os.sched_getaffinity(0))
        tell("how many checks at once", ran.returncode == 0 and is_so, ran)
        ran = of("--above")
        tell("what stands on each crate", (ran.returncode, ran.stdout) == (0, ABOVE), ran)
        for words in ((), (log, "--expect"), ("--lanes", "--above"), (Path(folder) / "none",)):
            ran = of(*words)
            tell(f"the words {words}", ran.returncode == 2 and "Traceback" not in ran.stderr, ran)
