"""Why a command line is refused, by the table: the word that is wrong, and what may stand there."""

import difflib
import os
from collections.abc import Iterable, Sequence

from .marks import LETTERS_AT_MOST
from .table import COMMANDS, Command, Option

HELP, VERSION = ("help", "--help", "-h"), ("version", "--version")
NAMES_ALL = "'./zorvleid --help' names all"


class Wrong(Exception):
    """What is wrong with a command line."""


def meant(word: str, names: Iterable[str]) -> str:
    """A question for the name that may have been meant."""
    near = difflib.get_close_matches(word[:LETTERS_AT_MOST].lower(), list(names), 1)
    return f"; did you mean '{near[0]}'?" if near else ""


def listed(parts: Sequence[str]) -> str:
    """Parts of a sentence as a list."""
    return " and ".join(filter(None, [", ".join(parts[:-1]), parts[-1]]))


def is_option(word: str) -> bool:
    """Whether a word is meant as an option: `-` is standard input, and a number may have a sign."""
    return word.startswith("-") and word != "-" and not word[1:].isdigit()


def takes(command: Command) -> str:
    """What stands after a command, beside its options."""
    if command.operands:
        parts = dict.fromkeys(value.what for value in command.operands)
        return f"{command.name} takes {listed(list(parts))}"
    return f"{command.name} takes {'options alone' if command.options else 'no word after it'}"


def check_operands(command: Command, words: Sequence[str]) -> None:
    """Refuses operands that are wrong, too many, or missing."""
    for word, value in zip(words, command.operands):
        if not value.fits(word):
            raise Wrong(f"{takes(command)}, not '{word}'")
    if words and not command.operands and command.reads and os.path.isfile(words[0]):
        raise Wrong(f"{takes(command)}, and reads standard input: {command.name} < {words[0]}")
    if len(words) > (count := len(command.operands)):
        extra = "and '{}' is one word too many" if count else "not '{}'"
        raise Wrong(f"{takes(command)}, {extra.format(words[count])}")
    if len(words) < count - command.may_lack:
        raise Wrong(f"{takes(command)}, and {command.operands[len(words)].name} is missing")


def option_of(command: Command, word: str) -> Option:
    """The option that a word names."""
    name = word.partition("=")[0]
    if (option := command.option(name)) is not None:
        return option
    if name in HELP:
        raise Wrong(f"{name} takes no value, not '{word.partition('=')[2]}'")
    if command.operands and os.path.exists(word):
        raise Wrong(f"{command.name} has no option '{word}'; the file is called './{word}'")
    names = [option.name for option in command.options]
    if not names:
        raise Wrong(f"{command.name} takes no option, not '{name}'{meant(name, ['--help'])}")
    near = meant(name, [*names, "--help"]) or f"; it has {listed(names)}"
    raise Wrong(f"{command.name} has no option '{name}'{near}")


def check_place(option: Option, words: Sequence[str], at: int) -> None:
    """Refuses an option that does not stand after the one that it needs."""
    if option.behind not in (word.partition("=")[0] for word in words):
        raise Wrong(f"{option.name} needs {option.behind}")
    example = f"{option.behind} 4 {option.name} 2"
    if any(word.startswith((f"{option.name}=", f"{option.behind}=")) for word in words):
        raise Wrong(f"where {option.name} stands no '=' is taken: write it as '{example}'")
    if words[at] != option.name or at < 2 or words[at - 2] != option.behind:
        raise Wrong(f"{option.name} stands after {option.behind}, as in '{example}'")
    if words[at - 1] == "0":
        raise Wrong(f"{option.name} needs {option.behind} from 1 to 8, not '0'")


def check_words(command: Command, words: Sequence[str]) -> None:
    """Refuses the first word after a command that is wrong."""
    seen: set[str] = set()
    operands: list[str] = []
    at = 0
    while at < len(words):
        word, at = words[at], at + 1
        if not is_option(word):
            operands.append(word)
            continue
        option = option_of(command, word)
        if operands and command.operands and not command.tool:
            raise Wrong(f"{option.name} stands before '{operands[0]}', not after it")
        if option.name in seen:
            raise Wrong(f"{option.name} stands twice")
        seen.add(option.name)
        here = at - 1
        value = word.partition("=")[2]
        if option.value is None:
            if word != option.name:
                raise Wrong(f"{option.name} takes no value, not '{value}'")
            continue
        if word == option.name:
            if at == len(words):
                raise Wrong(f"{option.name} takes {option.value.what}, and has nothing after it")
            value, at = words[at], at + 1
        if not option.value.fits(value):
            raise Wrong(f"{option.name} takes {option.value.what}, not '{value}'")
        if option.behind:
            check_place(option, words, here)
    alone = next((option for option in command.options
                  if option.is_alone and option.name in seen), None)
    if alone and operands:
        raise Wrong(f"{alone.words} goes with no file, not with '{operands[0]}'")
    check_operands(command, operands)
    for option in command.options:
        if option.is_needed and option.name not in seen:
            raise Wrong(f"{command.name} needs {option.words}")
    named = (option for option in command.options if option.name in seen)
    if command.needs_one and all(option.is_aside for option in named):
        choices = (option.words for option in command.options if not option.is_aside)
        raise Wrong(f"{command.name} needs {' or '.join(choices)}")


def command_of(name: str) -> Command:
    """The row of a name."""
    if name in COMMANDS:
        return COMMANDS[name]
    if os.path.isfile(name):
        raise Wrong(f"no command '{name}'; did you mean 'run {name}'?")
    kind = "option" if name.startswith("-") else "command"
    near = meant(name, [*COMMANDS, *HELP, *VERSION]) or f"; {NAMES_ALL}"
    raise Wrong(f"no {kind} '{name}'{near}")


def check(words: Sequence[str]) -> None:
    """Refuses a command line that is wrong."""
    if not words:
        raise Wrong(f"a command is missing; {NAMES_ALL}")
    name, rest = words[0], words[1:]
    if name in VERSION and rest:
        raise Wrong(f"{name} takes no word after it, not '{rest[0]}'")
    if name in HELP and len(rest) > 1:
        raise Wrong(f"{name} takes one command, and '{rest[1]}' is one word too many")
    if name in HELP + VERSION:
        if rest and rest[0] not in HELP + VERSION:
            command_of(rest[0])
        return
    command = command_of(name)
    if command.ends_with_command:
        if "--" not in rest or rest[-1] == "--":
            raise Wrong(f"{name} needs a command after --, as in '{name} FILE -- ./zorvleid run'")
        rest = rest[:rest.index("--")]
    if not command.takes_command:
        check_words(command, rest)
    elif not rest or rest[0] not in COMMANDS or COMMANDS[rest[0]].tool:
        raise Wrong(f"{name} takes a command of the program, as in '{name} run FILE'")
    else:
        check(rest)
        check_one_file(name, rest)


def check_one_file(name: str, words: Sequence[str]) -> None:
    """Refuses what the shell script alone adds to the words of the program."""
    if words[0] == "verify" and ("--quiet" in words or len(words) - words.count("--whole") > 2):
        raise Wrong(f"{name} takes one file and no --quiet, as in '{name} verify FILE'")


def reason(words: Sequence[str]) -> str | None:
    """Why a command line is refused, or None where it is right."""
    try:
        check(words)
    except Wrong as wrong:
        return str(wrong)
    return None
