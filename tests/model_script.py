"""Scripts, read a second time: the plans of their streams, or the first bad line and its fault."""

import re
from dataclasses import dataclass, field
from typing import NamedTuple

Name = tuple[int, int]  # a namespace and an id
Areas = dict[int, tuple[int, int]]  # of each number: the first place, and how many words
HIGH = {"high": 0, "normal": 1, "low": 2}


class Refused(Exception):
    """A fault of a script; its reader says in which line."""

    def __init__(self, kind: str) -> None:
        super().__init__(kind)
        self.kind, self.line = kind, 0


class Fence(NamedTuple):
    """A fence of a flush: a stream, by its number or its name, and its release."""

    target: int | Name
    release: int


class Action(NamedTuple):
    """One action of a client.

    Its number is the place of a put, the end of the commands of a flush, a token, or the place of a
    result that a finish reads.
    """

    kind: str
    number: int = 0
    value: int = 0
    reads: bool = False
    fences: tuple[Fence, ...] = ()


@dataclass
class Plan:
    """The actions of one stream of a script."""

    name: Name
    priority: int
    ring: int
    memories: Areas = field(default_factory=dict)
    results: Areas = field(default_factory=dict)
    actions: list[Action] = field(default_factory=list)

    def words(self, kind: Areas) -> int:
        return sum(words for _, words in kind.values())

    def closed(self) -> bool:
        return bool(self.actions) and self.actions[-1].kind == "close"


def lines_of(text: bytes) -> list[bytes]:
    pieces = text.split(b"\n")
    return pieces if pieces[-1] else pieces[:-1]


def decimal(word: bytes, digits: int = 10, bits: int = 32) -> int:
    if not re.fullmatch(rb"[0-9]{1,%d}" % digits, word) or int(word) >= 1 << bits:
        raise Refused("Number")
    return int(word)


def value(word: bytes) -> int:
    if not re.fullmatch(rb"[0-9a-fA-F]{1,8}", word):
        raise Refused("Number")
    return int(word, 16)


def need(holds: object, kind: str) -> None:
    if not holds:
        raise Refused(kind)


class Reader:
    """A script, line by line; the counts are those of the whole script."""

    def __init__(self, text: bytes) -> None:
        self.plans: list[Plan] = []
        self.version: int | None = None
        self.actions = self.flushes = self.line = 0
        try:
            for self.line, line in enumerate(lines_of(text), 1):
                words = [word for word in re.split(rb"[ \t\r]+", line) if word]
                if words and not words[0].startswith(b"#"):
                    self.take(words)
            if self.version is None:
                self.line += 1
                raise Refused("Head")
        except Refused as refused:
            refused.line = self.line
            raise

    def take(self, words: list[bytes]) -> None:
        if self.version is None:
            need(words in ([b"gpu-script", b"1"], [b"gpu-script", b"2"]), "Head")
            self.version = int(words[1])
            return
        first, rest = words[0].decode("latin-1"), words[1:]
        need(self.fits(first, len(rest)), "Word")
        if first == "stream":
            self.stream(rest)
        elif first in ("memory", "results"):
            self.declare(first, decimal(rest[0]), decimal(rest[1]))
        else:
            self.act(first, rest)

    def fits(self, first: str, count: int) -> bool:
        least = {"put": 2, "fill": 3}
        exact = {"stream": 3 if self.version == 1 else 4, "memory": 2, "results": 2, "finish": 0,
                 "token": 1, "close": 0,
                 "dump": 2}
        if first == "flush":
            return count >= 1 and (count - 1) % (2 if self.version == 1 else 3) == 0
        return count >= least[first] if first in least else exact.get(first) == count

    def stream(self, words: list[bytes]) -> None:
        need(words[-2].decode("latin-1") in HIGH, "Word")
        if self.version == 1:
            name = (0, decimal(words[0]))
        else:
            name = (decimal(words[0]), decimal(words[1], 20, 64))
        ring = decimal(words[-1])
        if self.version == 1:
            need(name[1] == len(self.plans) + 1, "Order")
        need(all(plan.name != name for plan in self.plans), "Double")
        need(16 <= ring <= 4096 and len(self.plans) < 16 and name[0] <= 255, "Limit")
        self.plans.append(Plan(name, HIGH[words[-2].decode()], ring))

    def declare(self, sort: str, number: int, words: int) -> None:
        need(self.plans and not self.plans[-1].actions, "Order")
        plan = self.plans[-1]
        kind = plan.memories if sort == "memory" else plan.results
        need(number not in kind, "Double")
        here = plan.words(kind)
        need(number <= 15 and words > 0 and here + words <= 65_536, "Limit")
        kind[number] = (plan.ring + here if sort == "memory" else here, words)

    def act(self, first: str, words: list[bytes]) -> None:
        if first == "put":
            numbers = [decimal(words[0])]
            values = [value(word) for word in words[1:]]
        elif first == "fill":
            numbers = [decimal(words[0]), decimal(words[1])]
            values = [value(word) for word in words[2:]]
        elif first == "flush":
            group = 2 if self.version == 1 else 3
            wide = [1] if self.version == 1 else [1, 2]
            numbers = [decimal(words[0])]
            numbers += [decimal(w, *((20, 64) if k % group in wide else ()))
                        for k, w in enumerate(words[1:])]
        else:
            numbers = [decimal(word) for word in words]
        need(self.plans and not self.plans[-1].closed(), "Order")
        plan = self.plans[-1]
        if first in ("put", "fill"):
            start, end = 0, plan.ring
            if first == "fill":
                need(numbers[0] in plan.memories, "Place")
                start, end = plan.memories[numbers[0]]
            need(numbers[-1] + len(values) <= end, "Place")
            plan.actions += [
                Action("put", start + numbers[-1] + k, v) for k, v in enumerate(values)
            ]
            self.actions += len(values)
        else:
            self.actions += 1
            plan.actions.append(self.single(plan, first, numbers))
        need(self.actions <= 1_000_000, "Limit")

    def single(self, plan: Plan, first: str, numbers: list[int]) -> Action:
        if first == "dump":
            need(numbers[0] in plan.results and numbers[1] < plan.results[numbers[0]][1], "Place")
            return Action("finish", plan.results[numbers[0]][0] + numbers[1], reads=True)
        if first == "token":
            return Action("token", numbers[0])
        if first != "flush":
            return Action(first)
        self.flushes += 1
        if self.version == 1:
            fences = tuple(map(Fence, numbers[1::2], numbers[2::2]))
        else:
            fences = tuple(map(Fence, zip(numbers[1::3], numbers[2::3]), numbers[3::3]))
        need(len(fences) <= 16 and self.flushes <= 100_000, "Limit")
        return Action("flush", numbers[0], fences=fences)
