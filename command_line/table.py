"""The table of commands: a row each, with what runs it, its operands and its options.

The help, the reasons for refused command lines and the start of the tools come from here. A tool
is added by one row.
"""

from collections.abc import Callable, Sequence
from dataclasses import dataclass
from functools import partial
from pathlib import Path

TOP = Path(__file__).resolve().parent.parent


def is_number(least: int, most: int, digits: int, text: str) -> bool:
    """Whether a word is a decimal number between two others, with no more digits than these."""
    is_decimal = text.isascii() and text.isdigit() and len(text) <= digits
    return is_decimal and least <= int(text) <= most


def is_place(text: str) -> bool:
    """Whether a word is two numbers with a comma between them."""
    x, comma, y = text.partition(",")
    return bool(comma) and all(is_number(0, 2**32 - 1, 10, part) for part in (x, y))


def is_stream(text: str) -> bool:
    """Whether a word is the number of a stream, or its name NS:ID."""
    space, colon, id = text.rpartition(":")
    is_space = not colon or is_number(0, 2**32 - 1, 10, space)
    return is_space and is_number(0, 2**64 - 1, 20, id)


@dataclass(frozen=True)
class Value:
    """What may stand at a place of a command line: its name in the help, and in words."""

    name: str
    what: str
    fits: Callable[[str], bool] = bool  # where nothing is said, any word that is not empty


def numbers(name: str, what: str, least: int, most: int, digits: int = 1) -> Value:
    """A value that is a number."""
    return Value(name, what, partial(is_number, least, most, digits))


@dataclass(frozen=True)
class Option:
    """An option, and the value that it takes, or None."""

    name: str
    value: Value | None
    says: str
    behind: str = ""  # the option that stands right before this one, where both are two words
    is_aside: bool = False  # whether it is none of those of which a command needs one
    is_needed: bool = False  # whether it has to be there
    tool: tuple[str, ...] = ()  # what runs the command with this option, in place of the program
    is_alone: bool = False  # whether no operand goes with it

    @property
    def words(self) -> str:
        """The option with the name of its value."""
        return f"{self.name} {self.value.name}" if self.value else self.name


@dataclass(frozen=True)
class Command:
    """A row of the table."""

    name: str
    says: str
    tool: tuple[str, ...] = ()  # its path, seen from the top, and its first words; or the program
    operands: tuple[Value, ...] = ()
    may_lack: int = 0  # how many of the last operands may be left out
    options: tuple[Option, ...] = ()
    needs_one: bool = False  # whether one of the options has to be there
    takes_command: bool = False  # whether a command line of the program stands after the name
    ends_with_command: bool = False  # whether `--` and a command of the user stand last
    reads: str = ""  # what standard input is

    def option(self, name: str) -> Option | None:
        """The option of a name."""
        return next((option for option in self.options if option.name == name), None)

    def tool_for(self, words: Sequence[str]) -> tuple[str, ...]:
        """What runs the command with these words, or nothing where that is the program."""
        named = (self.option(word.partition("=")[0]) for word in words)
        return next((option.tool for option in named if option and option.tool), self.tool)

    def is_there(self) -> bool:
        """Whether what runs the command is part of this tree."""
        return not self.tool or (TOP / self.tool[0]).exists()


FILE = Value("FILE", "the name of a file")
FOLDER = Value("FOLDER", "the name of a folder")
SIZE = numbers("SIZE", "a size from 1 to 2,000", 1, 2000, 10)
SEED = numbers("SEED", "a seed below 2^32", 0, 2**32 - 1, 10)

RUN = (
    Option("--workers", numbers("N", "1 to 8", 0, 8),
           "on threads, with 1 to 8 workers; left out, or 0: on one thread"),
    Option("--views", numbers("V", "1 to 4", 1, 4),
           "after --workers N: with 1 to 4 viewers, which look meanwhile", "--workers"),
)
PICTURES = (
    Option("--into", FOLDER, "where the files go; left out: pictures"),
    Option("--scale", numbers("N", "1 to 64", 1, 64, 10),
           "repeats each texel 1 to 64 times in both directions; left out: 1"),
    Option("--at", numbers("N", "the number of an event", 0, 2**32 - 1, 10),
           "as they were after event N; left out: at the end"),
)
TIMELINE = (
    Option("--trace", FILE, "the history for Perfetto and chrome://tracing"),
    Option("--page", FILE, "the history as one HTML file that needs nothing else"),
    Option("--script", FILE, "the script of the run, which tells PUT and all fences",
           is_aside=True),
)
LOG = (
    Option("--json", None, "as JSON, an object a line, by docs/log.schema.json"),
    Option("--stream", Value("S", "the number of a stream, or its name NS:ID", is_stream),
           "events of stream S alone, or of the stream NS:ID"),
    Option("--order", numbers("N", "an order number", 0, 2**32 - 1, 10),
           "events of order number N alone"),
    Option("--command", Value("NAME", "the name of a command"),
           "steps and losses of this command alone"),
    Option("--failed", None, "image commands that changed nothing"),
    Option("--lost", None, "losses of streams"),
    Option("--waits", None, "what made, dropped or ended a wait"),
    Option("--script", FILE, "the script of the run, which tells PUT and all fences"),
)
STATS = (
    Option("--json", None, "as JSON, one object, by docs/stats.schema.json"),
    Option("--script", FILE, "the script of an output, which tells all fences"),
    Option("--program", FILE, "the program that runs a script; left out: that of ./zorvleid"),
)
AT = Option("--at", numbers("N", "the number of an event", 0, 2**32 - 1, 10),
            "after event N; left out: at the end")
WHO = (
    Option("--image", numbers("I", "the number of an image", 0, 2**32 - 1, 10), "the image",
           is_needed=True),
    Option("--texel", Value("X,Y", "two numbers with a comma, as in 5,4", is_place),
           "the texel: its column and its row, from 0", is_needed=True),
    AT,
    Option("--json", None, "as JSON, one object, by docs/who.schema.json"),
)
STATE = (
    AT,
    Option("--json", None, "as JSON, one object, by docs/state.schema.json"),
    Option("--script", FILE, "the script of the run, which tells get and all fences"),
)
TRIM = (
    Option("--at", AT.value, "up to event N of the output; without OUTPUT, of a run on one thread",
           is_needed=True),
    Option("--program", FILE, "the program that runs the script; left out: that of ./zorvleid"),
)
VIEW = (
    Option("--page", FILE, "where the page goes; left out: a new file"),
    Option("--program", FILE, "the program that runs a script; left out: that of ./zorvleid"),
)
REDUCE = (
    Option("--seconds", numbers("N", "1 to 3,600", 1, 3600, 4),
           "a run of COMMAND that takes longer ends otherwise; left out: 60"),
)
COMPARE = (Option("--page", FILE, "both and the difference as one HTML file"),)
RACES = (
    Option("--json", None, "as JSON, an object a finding", is_aside=True),
    Option("--program", FILE, "the program that runs the script; left out: that of ./zorvleid"),
)
OF_SCRIPT = Value("SCRIPT", "a script")
OF_RUN = Value("OUTPUT", "an output of run")
MAY_END = "an output of run, also one whose end is missing"
FIRST, SECOND = Value("A", "two outputs of run"), Value("B", "two outputs of run")
JUDGING = (
    Option("--whole", None, "judges the lines after the journal too"),
    Option("--quiet", None, "writes nothing where the answer is yes"),
)
VERIFY = (
    *JUDGING,
    Option("--each", FOLDER, "judges each file of a folder, and counts the answers",
           tool=("view/run", "each"), is_alone=True),
)
EXPLAIN = (
    *JUDGING,
    Option("--program", FILE, "the program that verifies; left out: that of ./zorvleid"),
)
LINT = Option("--lint", None,
              "notes what is most likely a mistake, with status 1 where there is any")
CHECK = (
    Option("--cost", None, "also says which events, memory and seconds a run will take",
           tool=("view/run", "cost")),
    LINT,
)
ASSEMBLE = (
    LINT,
    Option("--await", None,
           "puts a finish before what would overwrite entries that the service may still read"),
)
SCRIPT, OUTPUT = "a script", "an output of run"
SCRIPT_AND_JOURNAL = "a script, a line `journal` and a journal, or with JOURNAL the script alone"
NAMES = "the names of a script and of a journal"
BOTH = (Value("SCRIPT", NAMES), Value("JOURNAL", NAMES))

ROWS = (
    Command("run", "runs a script, and writes what the run gives",
            operands=(FILE,), may_lack=1, options=RUN, reads=SCRIPT),
    Command("check", "reads a script, and counts its streams, actions and flushes",
            operands=(FILE,), may_lack=1, options=CHECK, reads=SCRIPT),
    Command("generate", "writes a script that the two numbers determine", operands=(SIZE, SEED)),
    Command("trial", "runs that script, and sums up what it gives in one line",
            operands=(SIZE, SEED)),
    Command("verify", "judges whether a journal is a legal and complete history of a script",
            operands=BOTH, may_lack=2, options=VERIFY, reads=SCRIPT_AND_JOURNAL),
    Command("pictures", "writes each image as a PNG file, and a sheet of them",
            ("view/run", "pictures"), operands=(OF_RUN,), may_lack=1, options=PICTURES,
            reads=MAY_END),
    Command("timeline", "writes the history for Perfetto, or as a page to look at",
            ("view/run", "timeline"), operands=(OF_RUN,), may_lack=1, options=TIMELINE,
            needs_one=True, reads=MAY_END),
    Command("log", "writes the events of an output in words, one a line", ("view/run", "log"),
            operands=(OF_RUN,), may_lack=1, options=LOG, reads=MAY_END),
    Command("stats", "counts what a run did, of each stream and of all", ("view/run", "stats"),
            operands=(FILE,), may_lack=1, options=STATS, reads="a script, or an output of run"),
    Command("who", "names the commands that made a texel, through copies, to an upload or a clear",
            ("view/run", "who"), operands=(OF_RUN,), may_lack=1, options=WHO, reads=OUTPUT),
    Command("state", "says how streams, waits, buckets, buffers and images stand after an event",
            ("view/run", "state"), operands=(OF_RUN,), may_lack=1, options=STATE, reads=OUTPUT),
    Command("compare", "says where two outputs of one script differ, with status 1 where they do",
            ("view/run", "compare"), operands=(FIRST, SECOND), options=COMPARE),
    Command("explain", "runs verify, and says what its answer means",
            ("view/run", "explain"), operands=BOTH, may_lack=2, options=EXPLAIN,
            reads=SCRIPT_AND_JOURNAL),
    Command("races", "says what a run of a script with workers may change, with status 1 for races",
            ("view/run", "races"), operands=(OF_SCRIPT, OF_RUN), may_lack=1, options=RACES),
    Command("assemble", "turns a text of commands into a script", ("python/run", "assemble"),
            operands=(FILE,), may_lack=1, options=ASSEMBLE, reads="a text of commands"),
    Command("disassemble", "turns a script into a text of commands", ("python/run", "disassemble"),
            operands=(FILE,), may_lack=1, reads=SCRIPT),
    Command("trim", "writes the script up to an event of its run, which runs to the state there",
            ("view/run", "trim"), operands=(OF_SCRIPT, OF_RUN), may_lack=1, options=TRIM),
    Command("reduce", "finds the smallest script for which a command ends with the same status",
            ("python/run", "reduce"), operands=(OF_SCRIPT,), options=REDUCE,
            ends_with_command=True),
    Command("view", "makes the page of a script, of commands or of an output, and shows it",
            ("view/run", "view"), operands=(FILE,), may_lack=1, options=VIEW,
            reads="a script, a text of commands, or an output of run"),
    Command("preview", "runs a program that is built without proof", ("tools/preview",),
            takes_command=True),
)
COMMANDS = {row.name: row for row in ROWS if row.is_there()}
