"""The crates of crates.txt, what each stands on, and the seconds of tools/crate_times.tsv."""

from collections.abc import Iterable, Mapping
from dataclasses import dataclass
from pathlib import Path

LIST, TIMES = Path("crates.txt"), Path("tools/crate_times.tsv")
PROGRAM = "script_main"
SOURCES = ("src", "specs", "proofs")  # the folders of a crate that a proof reads
UNKNOWN = 60.0  # for a crate that the file of times does not have
PARTS = ("proof", "tests", "edits")
NOT_MEASURED = "-"

Libraries = Mapping[str, list[str]]


@dataclass(frozen=True)
class Seconds:
    """The seconds that a crate takes of a processor: its proof, its tests' proof and its edits.

    None stands for what nobody measured.
    """

    proof: float
    tests: float | None = None
    edits: float | None = None

    def in_the_gate(self) -> float:
        """All three. By the toolchain's guide the proofs are a fifth of a gate."""
        tests = self.proof if self.tests is None else self.tests
        return self.proof + tests + (3 * self.proof if self.edits is None else self.edits)


def rows(path: Path) -> dict[str, str]:
    """The line of each crate in crates.txt."""
    lines = (
        line.partition("#")[0].strip() for line in path.read_text(encoding="utf-8").splitlines()
    )
    return {line.partition(":")[0].split()[0]: line for line in lines if ":" in line}


def libraries(path: Path) -> dict[str, list[str]]:
    """The libraries of each crate, as crates.txt has them, the toolchain's among them."""
    return {name: row.partition(":")[2].split() for name, row in rows(path).items()}


def made_of(crate: str, listed: Libraries) -> list[str]:
    """The crates that a crate is made of, each after those that it stands on, and itself last."""
    found: dict[str, None] = {}

    def add(name: str) -> None:
        for lower in listed[name]:
            if lower in listed and lower not in found:
                add(lower)
        found[name] = None

    add(crate)
    return list(found)


def above(listed: Libraries) -> dict[str, list[str]]:
    """The crates that stand on each crate, directly or on others that do."""
    found: dict[str, list[str]] = {name: [] for name in listed}
    for crate in listed:
        for lower in made_of(crate, listed)[:-1]:
            found[lower].append(crate)
    return found


def longest_chain(listed: Libraries, seconds: Mapping[str, float]) -> list[str]:
    """The crates of the chain that takes longest, each standing on the one before."""
    chains: dict[str, list[str]] = {}

    def length(chain: Iterable[str]) -> float:
        return sum(seconds.get(it, 0.0) for it in chain)

    for crate in listed:
        for name in made_of(crate, listed):
            if name not in chains:
                lower = [chains[it] for it in listed[name] if it in listed]
                chains[name] = [*max(lower, key=length, default=[]), name]
    return max(chains.values(), key=length, default=[])


def read_times(path: Path) -> dict[str, Seconds]:
    """The seconds of each crate in a file of times; none where there is no file."""
    if not path.exists():
        return {}
    found = {}
    for line in path.read_text(encoding="utf-8").splitlines()[1:]:
        name, proof, *more = line.split("\t")
        found[name] = Seconds(
            float(proof), *(None if it == NOT_MEASURED else float(it) for it in more)
        )
    return found


def write_times(path: Path, listed: Libraries, times: Mapping[str, Seconds]) -> None:
    """Writes a row for each crate of the list whose proof was measured, in the list's order."""
    rows = ["\t".join(("crate", *PARTS))]
    for name in listed:
        if name in times:
            row = times[name]
            cells = [
                NOT_MEASURED if it is None else f"{it:.0f}"
                for it in (row.proof, row.tests, row.edits)
            ]
            rows.append("\t".join((name, *cells)))
    path.write_text("\n".join(rows) + "\n", encoding="utf-8")
