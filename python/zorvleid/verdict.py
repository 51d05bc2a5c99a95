"""The program's verdict on a journal: `verify` runs it, and gives a `Verdict`."""

import re
from dataclasses import dataclass
from pathlib import Path

from .output import Image, Output, OutputRefused, read_output
from .program import ProgramFault, Ran, bytes_of, called, fault_of
from .script import Script

YES, REFUSED, NO, NOT_COMPLETE, NO_JOURNAL = 0, 5, 9, 10, 11
SAID = re.compile(
    r"no: event (?P<event>\d+) rule (?P<rule>\d+)|no: line (?P<off>\d+): (?P<due>\w+)"
    r"|refused: (?:journal )?line (?P<line>\d+).*"
)


@dataclass(frozen=True)
class Verdict:
    """The answer to a journal. `text` is the line that says it."""

    status: int
    text: str
    event: int | None = None  # the first that breaks a rule, and the rule
    rule: int | None = None
    line: int | None = None  # of the whole input, where one is refused or off
    due: str | None = None  # what is due in a line that is off, as `image`
    images: tuple[Image, ...] = ()

    @property
    def is_yes(self) -> bool:
        """Whether the journal is a legal and complete history of the script."""
        return self.status == YES

    def __bool__(self) -> bool:
        """As `is_yes`, so that `if verify(..):` asks what it seems to ask."""
        return self.is_yes


def output_of(written: bytes) -> Output:
    """The answer of a program that says yes. Another program may end with the same status."""
    try:
        output = read_output(written)
    except OutputRefused as refused:
        raise ProgramFault(f"the program does not answer as `verify` does: {refused}") from None
    if not output.is_verdict:
        raise ProgramFault("the program does not answer as `verify` does")
    return output


def ended(text: bytes) -> bytes:
    """A text whose last line has a line feed."""
    return text if not text or text.endswith(b"\n") else text + b"\n"


def joined(script: bytes, journal: bytes) -> bytes:
    """The input of `verify` that a script and a journal are."""
    return ended(script) + b"journal\n" + ended(journal)


def verify(
    script: Script | str | bytes,
    journal: Ran | str | bytes,
    whole: bool = False,
    program: Path | str | None = None,
) -> Verdict:
    r"""Has the program judge a journal by a script, and every line of an output if it is `whole`.

    >>> script = "gpu-script 1\nstream 1 low 16\nflush 0\n"
    >>> verify(script, "order 1 1 0\nfinish 1 1\n").text
    'yes events 2'
    >>> verify(script, "order 1 1 0\nfinish 1 2\n").rule
    4
    """
    after = journal.text if isinstance(journal, Ran) else bytes_of(journal)
    data = joined(bytes_of(script), after)
    ran = called(["verify", *(["--whole"] if whole else [])], data, program)
    lines = ran.stderr.decode("utf-8", "replace").splitlines() or [""]
    said = next((line for line in lines if SAID.fullmatch(line)), lines[0])
    if ran.returncode == YES:
        output = output_of(ran.stdout)
        return Verdict(YES, f"yes events {output.event_count}", images=tuple(output.images))
    if ran.returncode not in (REFUSED, NO, NOT_COMPLETE, NO_JOURNAL):
        raise fault_of(ran)
    found = SAID.fullmatch(said)
    parts = found.groupdict() if found else {}
    event, rule, off, line = (
        int(parts[name]) if parts.get(name) else None for name in ("event", "rule", "off", "line")
    )
    return Verdict(ran.returncode, said, event, rule, off or line, parts.get("due"))
