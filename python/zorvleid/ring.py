"""What a client knows of its ring: its next place, and what the service may still read.

Positions count all entries since the beginning, and never fall; a position modulo the size of the
ring is its place.
"""

from bisect import bisect_left

from .commands import SET_TOKEN, parts_of

FETCHED_AT_MOST = 1_048_576  # after this many commands a stream is lost, whatever it has put


class Ring:
    """A ring of one stream, as its client writes it."""

    def __init__(self, size: int) -> None:
        self.size = size
        self.freed = self.handed = self.next = 0  # positions: read by the service, handed over, put
        self._words = [0] * size
        self._tokens: list[int] = []  # rising tokens that were handed over,
        self._ends: list[int] = []  # and the position after each SetToken
        self._walked = 0

    @property
    def place(self) -> int:
        """Where the next command goes."""
        return self.next % self.size

    @property
    def pending(self) -> int:
        """How many entries were put and not handed over."""
        return self.next - self.handed

    def busy(self, place: int, count: int) -> tuple[int, bool] | None:
        """The first of these places that may be read, and whether it was handed over; or None."""
        used = self.next - self.freed
        ahead = (place - self.freed) % self.size
        if ahead >= used:  # free up to the place of the first entry that may be read
            if used == 0 or ahead + count <= self.size:
                return None
            ahead = 0
        position = self.freed + ahead
        return position % self.size, position < self.handed

    def store(self, place: int, value: int) -> None:
        """Stores a value at a place."""
        self._words[place] = value

    def flush(self, put: int) -> None:
        """Hands over the entries up to a place; a place outside of the ring hands over none."""
        if put >= self.size:
            return
        begin = self.handed
        self.handed += (put - begin) % self.size
        self._note_tokens(begin)
        self.next = self.handed + max(self.pending, 0) % self.size

    def finish(self) -> None:
        """All that was handed over has been read."""
        self.freed = self.handed

    def token(self, token: int) -> None:
        """The stream has set a token that is as great, or has read all that was handed over."""
        at = bisect_left(self._tokens, token)
        if token > 0:
            self.freed = max(self.freed, self._ends[at] if at < len(self._ends) else self.handed)

    def _note_tokens(self, at: int) -> None:
        """Looks for the tokens in what was handed over, from a position on."""
        while at < self.handed and self._walked < FETCHED_AT_MOST:
            place = at % self.size
            number, size = parts_of(self._words[place])
            at += size
            self._walked += 1
            if size == 0 or at > self.handed or place + size > self.size:
                return
            if number == SET_TOKEN.id and size == SET_TOKEN.size:
                token = self._words[place + 1]
                if not self._tokens or token > self._tokens[-1]:
                    self._tokens.append(token)
                    self._ends.append(at)
