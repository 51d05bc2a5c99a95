"""Scripts for `races`, each made from a number: half of them keep apart, the others share images.

- Every second script has clients that keep apart. They have images of their own, await the finish
  of a flush before they change its words, and close their stream after a finish.
- Of the others one half does the same with shared images, so that only images race.
- The rest are hostile scripts, in which everything races.

`history(script, choose)` is a legal and complete history of a script by a schedule of one's own.
"""

from collections.abc import Callable

from tests import hostile
from tests.hostile import SMALL, Client, Draw, Names, Words
from tests.model_history import History, Standing
from tests.model_run import Lost, fetched_command, shown
from tests.model_script import Reader

Choice = tuple[int, str]  # a stream, and the line that it may do next
Choose = Callable[[History, list[Choice]], Choice]


class Careful(Client):
    """A client that awaits its flushes before it changes their words, and before it closes."""

    def __init__(self, draw: Draw, names: Names, number: int) -> None:
        super().__init__(draw, names, number)
        self.racing, self.haste = 0, 1
        self.bad = min(self.bad, 2)

    def fill(self) -> None:
        self.line("finish")
        self.open = 0
        super().fill()

    def make_create(self) -> Words:
        return [self.image(), (self.draw.between(1, 6), SMALL), (self.draw.between(1, 5), SMALL)]

    def script(self) -> list[str]:
        lines = super().script()
        return [*lines[:-1], "finish", "close"] if lines[-1] == "close" else lines


class Apart(Careful):
    """One that has images of its own, too."""

    def image(self) -> tuple[int, int]:
        return 8 * self.number + self.draw.between(1, 3), SMALL


def script(seed: int) -> str:
    """The script of a seed, as text."""
    return hostile.script(seed, (Apart, Careful, Apart, Client)[seed % 4])


# --- Histories by a schedule ---


def next_lines(history: History, number: int) -> list[str]:
    """The events that a stream may do next: an order, and what its first number does or a close.

    The client is as far as it can come, and the service fetches what is there then.
    """
    s = history.streams[number - 1]
    found = []
    if s.gone:
        return []
    if s.ordered < len(s.places) and s.places[s.ordered] <= s.next:
        place = s.places[s.ordered]
        found.append(f"order {number} {history.orders + 1} {place}")
    if s.left and not any(wait[:2] == (number, s.left[0][0]) for wait in history.pending):
        found.append(work(s, number))
    if s.plan.closed() and s.ordered == len(s.places) and s.next == len(s.plan.actions) - 1:
        found.append(f"close {number}")
    return found


def work(s: Standing, number: int) -> str:
    """The step, the loss or the finish of a stream."""
    order, put = s.left[0]
    if s.entries % s.plan.ring == put:
        return f"finish {number} {order}"
    # those of its client once it has come as far as it can
    s.words = {action.number: action.value for action in s.plan.actions[:s.next]
               if action.kind == "put"}
    try:
        return f"step {number}" + shown(fetched_command(s)[2])
    except Lost as lost:
        return f"lost {number} {lost.code}" + shown(lost.words)


def history(script: Reader, choose: Choose) -> History:
    """The history in which a schedule chooses each event."""
    made = History(script)
    while choices := [(number, line) for number in range(1, len(made.streams) + 1)
                      for line in next_lines(made, number)]:
        made.take(choose(made, choices)[1])
    made.need_complete()
    return made


def first_of(stream: int, events: list[str]) -> Choose:
    """A schedule in which a stream does all that it can first; the others go on as in a run."""
    left = [event for event in events if event.split(" ")[1] != str(stream)]

    def choose(_: History, choices: list[Choice]) -> Choice:
        own = [choice for choice in choices if choice[0] == stream]
        if own:
            return own[0]
        while left:
            kind, number = left.pop(0).split(" ")[:2]
            for choice in choices:
                if choice[0] == int(number) and choice[1].startswith(kind):
                    return choice
        return choices[0]

    return choose


def by_chance(seed: int) -> Choose:
    """A schedule that draws; some streams are slower than others."""
    draw = Draw(seed)
    haste = [draw.between(1, 9) for _ in range(16)]

    def choose(_: History, choices: list[Choice]) -> Choice:
        weighed = [choice for choice in choices for _ in range(haste[choice[0] - 1])]
        return draw.of(weighed)

    return choose
