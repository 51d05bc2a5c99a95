"""A lawful script: the streams and their actions.

Scripts that may be unlawful are not read here.
"""

import re
from bisect import bisect_left, bisect_right
from collections.abc import Iterable, Iterator
from dataclasses import dataclass, field
from functools import cached_property
from itertools import count

HEXADECIMAL = re.compile("[0-9a-fA-F]+").fullmatch
Target = int | tuple[int, int]  # a stream by its number, or by its name


# A line of a script with actions: their kind, and an argument; of puts that is the first place, and
# each action has a value, which is kept as its hexadecimal digits.
Line = tuple[str, int, list[str]]


@dataclass(eq=False)
class Plan:
    """The actions of one stream of a script.

    Places are those of its ring and of the transfer memories after it.
    """

    name: tuple[int, int]
    ring: int
    # by number: the first place and the number of words
    memories: dict[int, tuple[int, int]] = field(default_factory=dict)
    # the same of result memories, with places of their own
    results: dict[int, tuple[int, int]] = field(default_factory=dict)
    words: int = 0  # of all transfer memories
    size: int = 0  # how many actions there are
    acts: list[Line] = field(default_factory=list)
    # of each of them: its first action, and the number of the line
    begins: list[int] = field(default_factory=list)
    lines: list[int] = field(default_factory=list)
    flushes: list[int] = field(default_factory=list)  # how many actions stand before each flush
    # of each action that waits, and of a close: the actions and the flushes before it, and its line
    awaits: list[tuple[int, int, Line]] = field(default_factory=list)
    # of each dump: how many actions stand before it, and its result place
    dumps: list[tuple[int, int]] = field(default_factory=list)
    # of a flush that has some, by its action
    fences: dict[int, list[tuple[Target, int]]] = field(default_factory=dict)

    def add(self, number: int, line: Line) -> None:
        """Adds the actions of a line of the script."""
        self.begins.append(self.size)
        self.lines.append(number)
        self.acts.append(line)
        self.size += len(line[2])

    @cached_property
    def actions(self) -> list[tuple[str, int, int]]:
        """All of them: the kind, the argument or the place, and the value."""
        return [(kind, argument + at, int(value, 16)) for kind, argument, values in self.acts
                for at, value in enumerate(values)]

    def closes(self) -> bool:
        return bool(self.acts) and self.acts[-1][0] == "close"

    def at(self, action: int) -> int:
        """Which line with actions has an action."""
        return bisect_right(self.begins, action) - 1

    def put_of(self, action: int) -> int:
        """PUT of a flush."""
        return self.acts[self.at(action)][1]

    def fences_of(self, action: int) -> list[tuple[Target, int]]:
        return self.fences.get(action, [])

    def line_of(self, action: int) -> int:
        """The number of the line of an action, from 1."""
        return self.lines[self.at(action)]

    def puts(self, begin: int, end: int) -> Iterator[tuple[int, int]]:
        """The puts from one line with actions to another: each action, and its place."""
        for at in range(bisect_left(self.begins, begin), bisect_left(self.begins, end)):
            kind, place, values = self.acts[at]
            if kind == "put":
                yield from zip(count(self.begins[at]), range(place, place + len(values)))

    def values_between(
        self, places: Iterable[int], begin: int, end: int
    ) -> dict[int, dict[int, None]]:
        """The values of each place between two numbers of done actions, each once."""
        values: dict[int, dict[int, None]] = {place: {0: None} for place in places}
        for done, (kind, place, value) in enumerate(self.actions[:end]):
            if kind != "put" or place not in values:
                continue
            if done < begin:
                values[place].clear()
            values[place][value] = None
        return values

    def passed(self, finished: int, token: int, first: int = 0) -> int:
        """How many awaits the client can have passed after some finishes, with a greatest token.

        Before a stream sets one its token is 0, so `token 0` waits for nothing. The first ones are
        known to be passed.
        """
        while first < len(self.awaits):
            _, before, (kind, wanted, _) = self.awaits[first]
            is_content = before <= finished or (kind == "token" and token >= wanted)
            if kind == "close" or not is_content:
                break
            first += 1
        return first

    def reach(self, passed: int) -> int:
        """The most actions of a client that has passed some awaits."""
        return self.awaits[passed][0] if passed < len(self.awaits) else self.size


class Script:
    """The plans of a script by the number of their stream, from 1."""

    def __init__(self, lines: Iterable[str]) -> None:
        self.version = 1
        self.line = 0  # that is read
        self.plans: list[Plan] = []
        for self.line, line in enumerate(lines, 1):
            words = line.split()
            if words and not words[0].startswith("#"):
                self.take(words)

    @property
    def names(self) -> list[tuple[int, int]]:
        return [plan.name for plan in self.plans]

    def take(self, words: list[str]) -> None:
        first, rest = words[0], words[1:]
        if first == "gpu-script":
            self.version = int(rest[0])
        elif first == "stream":
            name = (0, int(rest[0])) if self.version == 1 else (int(rest[0]), int(rest[1]))
            self.plans.append(Plan(name, int(rest[-1])))
        elif first in ("memory", "results"):
            self.declare(self.plans[-1], first, int(rest[0]), int(rest[1]))
        else:
            self.act(self.plans[-1], first, rest)

    @staticmethod
    def declare(plan: Plan, kind: str, number: int, words: int) -> None:
        if kind == "memory":
            plan.memories[number] = (plan.ring + plan.words, words)
            plan.words += words
        else:
            plan.results[number] = (sum(size for _, size in plan.results.values()), words)

    def act(self, plan: Plan, first: str, rest: list[str]) -> None:
        line: Line = (first, 0, ["0"])
        if first == "put":
            line = (first, int(rest[0]), values_of(rest[1:]))
        elif first == "fill":
            line = ("put", plan.memories[int(rest[0])][0] + int(rest[1]), values_of(rest[2:]))
        elif first == "flush":
            line = (first, int(rest[0]), ["0"])
            if len(rest) > 1:
                plan.fences[plan.size] = self.fences(rest[1:])
            plan.flushes.append(plan.size)
        else:
            if first == "token":
                line = (first, int(rest[0]), ["0"])
            elif first == "dump":
                line = ("finish", 0, ["0"])
                plan.dumps.append((plan.size, plan.results[int(rest[0])][0] + int(rest[1])))
            plan.awaits.append((plan.size, len(plan.flushes), line))
        plan.add(self.line, line)

    def fences(self, words: list[str]) -> list[tuple[Target, int]]:
        """Pairs of a stream and a release; a stream of version 2 has its name."""
        numbers = list(map(int, words))
        if self.version == 1:
            return list(zip(numbers[::2], numbers[1::2]))
        return list(zip(zip(numbers[::3], numbers[1::3]), numbers[2::3]))


def values_of(words: list[str]) -> list[str]:
    """Words, which have to be hexadecimal digits."""
    if not HEXADECIMAL("".join(words)):
        raise ValueError(f"other than hexadecimal digits: {' '.join(words)}")
    return words
