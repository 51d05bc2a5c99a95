"""The passed and failed items of a check, printed as they come."""

from collections.abc import Iterable
from dataclasses import dataclass, field

FAILED = "failed: "  # how the line of an item that failed begins
AT_MOST = 300  # characters of such a line that are printed once more


@dataclass
class Tally:
    """A quiet one prints nothing, and a talkative one prints notes too."""

    quiet: bool = False
    talkative: bool = False
    passed: int = 0
    failed: int = 0
    faults: list[str] = field(default_factory=list)

    def tell(self, name: str, fault: str | None) -> None:
        """Counts one item, which failed where there is a fault."""
        if fault is None:
            self.passed += 1
            return
        self.failed += 1
        said = f"{FAILED}{name}: {fault}"
        self.keep([said])
        if not self.quiet:
            print(said, flush=True)

    def add(self, passed: int, failed: int, lines: Iterable[str]) -> None:
        """Counts items that another check has told in these lines."""
        self.passed += passed
        self.failed += failed
        self.keep(lines)

    def keep(self, lines: Iterable[str]) -> None:
        """Keeps the begin of each item that failed, for the end of a long check."""
        self.faults += (line.partition("\n")[0][:AT_MOST] for line in lines
                        if line.startswith(FAILED))

    def tell_again(self) -> None:
        """Prints a line for each item that failed, for a reader who has the last lines alone."""
        for line in self.faults:
            print(line, flush=True)

    def tell_all(self, name: str, faults: Iterable[tuple[str, str | None]]) -> None:
        """Counts a thing that was tried in many ways: one item, or each place with a fault."""
        faults = list(faults)
        for where, fault in faults:
            self.tell(f"{name}: {where}", fault)
        if not faults:
            self.tell(name, None)

    def skip(self, name: str, why: str) -> None:
        """Prints that an item cannot be checked here."""
        if not self.quiet:
            print(f"skipped: {name}: {why}", flush=True)

    def note(self, text: str) -> None:
        """Prints a note."""
        if self.talkative:
            print(text, flush=True)

    def end(self) -> int:
        """Prints how many passed and failed, and gives the status of the check."""
        print(f"{self.passed} passed, {self.failed} failed")
        return 1 if self.failed else 0
