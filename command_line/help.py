"""The help, from the table: all of it, or the part of one command."""

from collections.abc import Iterator

from .table import COMMANDS, Command

COLUMN, WIDTH = 30, 100  # where the sentences begin, and where they end

STATUSES = """\
Where the status is not 0, a line on standard error says why:

    1   all was written, and a stream was lost     7   the input is too long
    2   the words are wrong, or harm an input      8   a stream was lost as out of memory
    3   standard input or a named file failed      9   the journal breaks a rule, or a line is off
    4   standard output or a file failed          10   the journal is legal and not complete
    5   the input is no script, or no output      11   the journal is missing, or is none
    6   memory ran out
    126 where the program is not built, 127 where the toolchain or what a tool needs is missing"""

EXAMPLES = """\
Examples:

    ./zorvleid run examples/two_texels.script
    ./zorvleid run examples/compositor.script | ./zorvleid pictures --into pictures --scale 16
    ./zorvleid run examples/compositor.script | ./zorvleid timeline --page timeline.html
    ./zorvleid run examples/lost_stream.script | ./zorvleid log --script examples/lost_stream.script
    ./zorvleid races examples/compositor.script
    sed 's/^order 2 2/order 2 3/' examples/names.stdout |
        ./zorvleid explain examples/names.script -"""

BUILD = """\
The first run proves and builds the program, which takes long. A line on standard error says how
long it takes here. On a terminal, or with ZORVLEID_PROGRESS=1, more lines tell how far it is."""


def words_of(command: Command) -> str:
    """The name of a command with its operands."""
    names = [value.name for value in command.operands]
    sure = len(names) - command.may_lack
    front = [command.name, "COMMAND .."] if command.takes_command else [command.name]
    last = ["-- COMMAND .."] if command.ends_with_command else []
    return " ".join([*front, *names[:sure], *(f"[{name}]" for name in names[sure:]), *last])


def row(words: str, says: str, indent: int = 4) -> Iterator[str]:
    """Words and what is said of them, which goes on below where the line is full."""
    line = " " * indent + words
    line += " " * max(2, COLUMN - len(line))
    for word in says.split():
        if len(line) + len(word) > WIDTH:
            yield line.rstrip()
            line = " " * COLUMN
        line += word + " "
    yield line.rstrip()


def rows_of(command: Command) -> Iterator[str]:
    """A command and its options, a row each."""
    yield from row(words_of(command), command.says)
    for option in command.options:
        yield from row(option.words, option.says, indent=8)


def whole() -> Iterator[str]:
    """The help with all commands."""
    rows = COMMANDS.values()
    yield from ("usage: ./zorvleid COMMAND [WORD ..]", "")
    yield from ("The program. Without FILE, or with `-` for it, standard input is read:", "")
    for command in rows:
        if not command.tool:
            yield from rows_of(command)
    yield from ("", "Tools beside it, which claim nothing that it does not write:", "")
    for command in rows:
        if command.tool:
            yield from rows_of(command)
    yield ""
    yield from row("help [COMMAND]", "this text, or the part of one command")
    yield from row("--help, -h", "the same, also after a command")
    yield from row("--version, version", "the version, the commit, the kit and the program at hand")
    yield from ("", BUILD, "", STATUSES, "", EXAMPLES, "")
    yield "The manual page says more: man ./docs/zorvleid.1"


def of_command(command: Command) -> Iterator[str]:
    """The help of one command."""
    name, *operands = words_of(command).split(" ", 1)
    options = ["[OPTION ..]"] if command.options else []
    yield " ".join(["usage: ./zorvleid", name, *options, *operands])
    yield ""
    yield from rows_of(command)
    if command.reads:
        first = command.operands[0].name if command.operands else ""
        source = f"{first}, or standard input without it," if first else "Standard input"
        yield from ("", f"{source} is {command.reads}.")


def text(names: list[str]) -> str:
    """The help, of one command where one is named."""
    command = COMMANDS.get(names[0]) if names else None
    lines = of_command(command) if command else whole()
    return "".join(line + "\n" for line in lines)
