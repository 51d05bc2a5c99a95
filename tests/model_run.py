"""The run of a script on one thread, written a second time: commands, waits and rounds."""

from collections.abc import Callable, Iterable
from typing import Generic, NamedTuple, TypeVar

from tests.model_script import Name, Plan, Reader

BYTES_OF_FORMAT = {1: 4, 2: 2, 3: 2, 4: 1}
TEXELS_AT_MOST = 4_194_304
WORDS_AT_MOST = 1_048_576

INVALID_SIZE, OUT_OF_BOUNDS, UNKNOWN_COMMAND, INVALID_ARGUMENTS, QUOTA = 1, 2, 3, 4, 6
(NOOP, SET_TOKEN, SET_BUCKET_SIZE, SET_BUCKET_DATA, SET_BUCKET_IMMEDIATE, GET_BUCKET_START,
 GET_BUCKET_DATA) = range(7)
(INSERT_FENCE, WAIT_TOKEN, CREATE, DELETE, CLEAR, COPY, UPLOAD, UPLOAD_BUCKET, CREATE_BUFFER,
 DELETE_BUFFER, BUFFER_DATA, UPLOAD_BUFFER, WAIT_SYNC_TOKEN) = range(256, 269)
SIZES = {
    SET_TOKEN: 2, SET_BUCKET_SIZE: 3, SET_BUCKET_DATA: 6, GET_BUCKET_START: 7, GET_BUCKET_DATA: 6,
    INSERT_FENCE: 3, WAIT_TOKEN: 4, CREATE: 4, DELETE: 2, CLEAR: 7, COPY: 9, UPLOAD: 9,
    UPLOAD_BUCKET: 8, CREATE_BUFFER: 3, DELETE_BUFFER: 2, BUFFER_DATA: 6, UPLOAD_BUFFER: 9,
    WAIT_SYNC_TOKEN: 6,
}
Word = tuple[int, int]  # a place and its value
Check = Callable[[object, int], None]
Image = tuple[int, int, list[int]]  # the width, the height and the texels
LEAST_SIZES = {NOOP: 1, SET_BUCKET_IMMEDIATE: 4}


class Lost(Exception):
    """A command that is refused, with the words that were fetched of it."""

    def __init__(self, code: int, words: Iterable[Word] = ()) -> None:
        super().__init__(code)
        self.code, self.words = code, list(words)


class Pending(NamedTuple):
    """A wait that was kept: who waits with which number, for whom to come to which release."""

    waiter: int
    order: int
    position: int
    target: int
    release: int


class Stream:
    """A stream of a script: its words, its client, and what its commands did."""

    def __init__(self, plan: Plan) -> None:
        self.plan = plan
        self.words: dict[int, int] = {}
        self.next, self.flushes, self.finished, self.tokens = 0, 0, 0, [0]
        self.left: list[tuple[int, int]] = []  # the order number and the end of each flush
        self.gone: str | None = None  # what the stream line says of how it ended
        self.entries = self.fetched = self.release = self.token = 0
        self.buckets: dict[int, bytearray] = {}
        self.buffers: dict[int, bytearray] = {}
        self.results: dict[int, int] = {}
        self.errors = [0, 0, 0]
        self.read: list[tuple[int, int, int]] = []  # the action place, the result place, the value

    def passes(self) -> bool:
        kind, number = self.plan.actions[self.next][:2]
        match kind:
            case "close":
                return False
            case "token" if any(token >= number for token in self.tokens):
                return True
            case "finish" | "token":
                return self.finished >= self.flushes
        return True


S = TypeVar("S", bound=Stream)
Fetched = tuple[int, list[int], list[Word], int]  # the command, its arguments, its words, its size


def needs_of(command: int, a: list[int]) -> tuple[int, int, int] | None:
    """The memory, the first byte and the number of bytes that a command reads of it."""
    if command in (SET_BUCKET_DATA, BUFFER_DATA):
        return a[3], a[4], a[2]
    if command == UPLOAD:
        return a[6], a[7], a[3] * a[4] * BYTES_OF_FORMAT[a[5]]
    return None


def fetched_command(s: Stream) -> Fetched:
    """Fetches the next command of a stream: its number, its arguments and its words, or Lost."""
    put, here, plan = s.left[0][1], s.entries % s.plan.ring, s.plan
    if put >= plan.ring:
        raise Lost(OUT_OF_BOUNDS)
    room = (put if put > here else plan.ring) - here
    header = s.words.get(here, 0)
    size, command = header % 2**21, header // 2**21
    words = [(here, header)]

    def check(holds: object, code: int) -> None:
        if not holds:
            raise Lost(code, words)

    check(size, INVALID_SIZE)
    check(size <= room, OUT_OF_BOUNDS)
    check(command in SIZES or command in LEAST_SIZES, UNKNOWN_COMMAND)
    check(
        SIZES.get(command, size) == size and LEAST_SIZES.get(command, 1) <= size, INVALID_ARGUMENTS
    )
    ring_words = 1 if command == NOOP else size
    check(s.fetched + ring_words <= WORDS_AT_MOST, QUOTA)
    if command == NOOP:
        return command, [], words, size
    words += [(here + k, s.words.get(here + k, 0)) for k in range(1, size)]
    a = [word for _, word in words[1:]]
    check_arguments(command, a, plan, check)
    needs = needs_of(command, a)
    places = range(0)
    if needs and needs[2]:
        first = plan.memories[needs[0]][0]
        places = range(first + needs[1] // 4, first + (needs[1] + needs[2] - 1) // 4 + 1)
    check(s.fetched + ring_words + len(places) <= WORDS_AT_MOST, QUOTA)
    words += [(place, s.words.get(place, 0)) for place in places]
    check(fits_state(command, a, s), INVALID_ARGUMENTS)
    return command, a, words, size


def check_arguments(command: int, a: list[int], plan: Plan, check: Check) -> None:
    """Checks 6 to 9."""
    if command in (UPLOAD, UPLOAD_BUCKET, UPLOAD_BUFFER):
        check(1 <= a[5] <= 4, INVALID_ARGUMENTS)
    number = {UPLOAD_BUCKET: 6, UPLOAD_BUFFER: 6}.get(command, 0)
    if command in (SET_BUCKET_SIZE, SET_BUCKET_DATA, SET_BUCKET_IMMEDIATE, GET_BUCKET_START,
                   GET_BUCKET_DATA, UPLOAD_BUCKET, CREATE_BUFFER, DELETE_BUFFER, BUFFER_DATA,
                   UPLOAD_BUFFER):
        check(a[number] <= 15, INVALID_ARGUMENTS)
    if command in (SET_BUCKET_SIZE, CREATE_BUFFER):
        check(a[1] <= 262_144, INVALID_ARGUMENTS)
    if command == SET_BUCKET_IMMEDIATE:
        check(a[2] <= 4 * (len(a) - 3), INVALID_ARGUMENTS)
    written: list[tuple[int, int, int]] = []
    if command == GET_BUCKET_START:
        written = [(a[1], a[2], 4)] + ([(a[4], a[5], a[3])] if a[3] else [])
    elif command == GET_BUCKET_DATA:
        written = [(a[3], a[4], a[2])]
    check(all(offset % 4 == 0 for _, offset, _ in written), INVALID_ARGUMENTS)
    needs = needs_of(command, a)
    for memory, offset, count in [needs] if needs else []:
        check(memory in plan.memories and offset + count <= 4 * plan.memories[memory][1],
              OUT_OF_BOUNDS)
    for memory, offset, count in written:
        check(
            memory in plan.results and offset + count <= 4 * plan.results[memory][1], OUT_OF_BOUNDS
        )


def fits_state(command: int, a: list[int], s: Stream) -> bool:
    """Checks 11 and 12."""
    if command in (SET_BUCKET_DATA, SET_BUCKET_IMMEDIATE, GET_BUCKET_DATA):
        return a[0] in s.buckets and a[1] + a[2] <= len(s.buckets[a[0]])
    if command == GET_BUCKET_START:
        return a[0] in s.buckets
    if command == UPLOAD_BUCKET:
        return a[6] in s.buckets and a[3] * a[4] * BYTES_OF_FORMAT[a[5]] <= len(s.buckets[a[6]])
    if command == CREATE_BUFFER:
        return a[0] not in s.buffers
    if command == DELETE_BUFFER:
        return a[0] in s.buffers
    if command == BUFFER_DATA:
        return a[0] in s.buffers and a[1] + a[2] <= len(s.buffers[a[0]])
    if command == UPLOAD_BUFFER:
        return a[6] in s.buffers and a[7] + a[3] * a[4] * BYTES_OF_FORMAT[a[5]] <= len(
            s.buffers[a[6]]
        )
    return True


def bytes_of(values: Iterable[int]) -> bytes:
    return b"".join(v.to_bytes(4, "little") for v in values)


def texels_of(form: int, data: bytes) -> list[int]:
    out = []
    for at in range(0, len(data), BYTES_OF_FORMAT[form]):
        v = int.from_bytes(data[at:at + BYTES_OF_FORMAT[form]], "little")
        if form == 1:
            r, g, b, a = data[at:at + 4]
        elif form == 2:
            r, g, b, a = v // 2048 * 255 // 31, v // 32 % 64 * 255 // 63, v % 32 * 255 // 31, 255
        elif form == 3:
            r, g, b, a = (v // 16**k % 16 * 255 // 15 for k in (3, 2, 1, 0))
        else:
            r, g, b, a = v, v, v, 255
        out.append(r << 24 | g << 16 | b << 8 | a)
    return out


# --- The run ---


def shown(words: Iterable[Word]) -> str:
    return "".join(f" {place}:{word:08x}" for place, word in words)


class Standings(Generic[S]):
    """How all stands after some events of a script: the images, the streams, the waits."""

    def __init__(self, script: Reader, streams: list[S]) -> None:
        self.version = script.version
        self.streams = streams
        self.names = {plan.name: number for number, plan in enumerate(script.plans, 1)}
        self.images: dict[int, Image] = {}
        self.events: list[str] = []
        self.endings: list[tuple[int, int, int, int, str]] = []
        self.marks_made: dict[int, int] = {}
        self.pending: list[Pending] = []
        self.orders = 0

    def number_of(self, target: int | Name) -> int:
        return self.names.get(target, 0) if isinstance(target, tuple) else target

    def target(self, number: int) -> S | None:
        return self.streams[number - 1] if 1 <= number <= len(self.streams) else None

    def wait(self, number: int, order: int, to: int, release: int) -> bool:
        position = self.marks_made[order] = self.marks_made.get(order, -1) + 1
        t = self.target(to)
        kept = bool(t and to != number and not t.gone and t.release < release
                    and any(n < order for n, _ in t.left))
        if kept:
            self.pending.append(Pending(number, order, position, to, release))
        return kept

    def settle(self) -> None:
        """Ends the waits that the latest event ended."""
        for w in sorted(self.pending, key=lambda w: w[1:3]):
            number, order, _, to, release = w
            t = self.streams[to - 1]
            if self.streams[number - 1].gone:
                self.pending.remove(w)
                continue
            if t.release >= release:
                how = "release"
            elif t.gone == "closed":
                how = "closed"
            elif not any(n < order for n, _ in t.left):
                how = "guard"
            else:
                continue
            self.pending.remove(w)
            self.endings.append((number, order, to, release, how))

    def end(self, number: int, s: Stream, how: str, line: str) -> None:
        s.gone, s.left = how, []
        self.events.append(line)
        self.settle()

    def execute(
        self, number: int, order: int, s: Stream, command: int, a: list[int], loaded: list[Word]
    ) -> bool:
        """Does what a command does; true where its wait was kept."""
        if command == INSERT_FENCE:
            s.release = max(s.release, a[0] + (a[1] << 32))
            self.settle()
        elif command == WAIT_TOKEN:
            return self.wait(number, order, a[0], a[1] + (a[2] << 32))
        elif command == WAIT_SYNC_TOKEN:
            return self.wait(
                number, order, self.names.get((a[0], a[1] + (a[2] << 32)), 0), a[3] + (a[4] << 32)
            )
        elif command == SET_TOKEN:
            s.token = a[0]
            s.tokens.append(a[0])
        elif command in (CREATE, DELETE, CLEAR, COPY, UPLOAD, UPLOAD_BUCKET, UPLOAD_BUFFER):
            error = self.draw(s, command, a, bytes_of(v for _, v in loaded))
            if error is not None:
                s.errors[error] += 1
        elif command != NOOP:
            self.keep(s, command, a, bytes_of(v for _, v in loaded))
        return False

    @staticmethod
    def keep(s: Stream, command: int, a: list[int], data: bytes) -> None:
        """The commands on buckets and buffers."""
        if command == SET_BUCKET_SIZE:
            if len(s.buckets.get(a[0], b"")) != a[1] or a[0] not in s.buckets:
                s.buckets[a[0]] = bytearray(a[1])
        elif command == SET_BUCKET_DATA:
            s.buckets[a[0]][a[1]:a[1] + a[2]] = data[a[4] % 4:][:a[2]]
        elif command == SET_BUCKET_IMMEDIATE:
            s.buckets[a[0]][a[1]:a[1] + a[2]] = bytes_of(a[3:])[:a[2]]
        elif command == CREATE_BUFFER:
            s.buffers[a[0]] = bytearray(a[1])
        elif command == DELETE_BUFFER:
            del s.buffers[a[0]]
        elif command == BUFFER_DATA:
            s.buffers[a[0]][a[1]:a[1] + a[2]] = data[a[4] % 4:][:a[2]]
        else:
            bucket = s.buckets[a[0]]
            if command == GET_BUCKET_START:
                writes = [(a[1], a[2], len(bucket).to_bytes(4, "little")),
                          (a[4], a[5], bytes(bucket[:a[3]]))]
            else:
                writes = [(a[3], a[4], bytes(bucket[a[1]:a[1] + a[2]]))]
            for memory, offset, part in writes:
                for at in range(0, len(part), 4):
                    place = s.plan.results[memory][0] + (offset + at) // 4
                    s.results[place] = int.from_bytes(part[at:at + 4], "little")

    def draw(self, s: Stream, command: int, a: list[int], data: bytes) -> int | None:
        """The commands on images: the place of the error among the counts of errors, or None."""
        images = self.images
        invalid_value, invalid_operation, out_of_texels = 0, 1, 2
        if command == CREATE:
            if a[0] in images:
                return invalid_operation
            if not (1 <= a[1] <= 4096 and 1 <= a[2] <= 4096):
                return invalid_value
            if sum(w * h for w, h, _ in images.values()) + a[1] * a[2] > TEXELS_AT_MOST:
                return out_of_texels
            images[a[0]] = (a[1], a[2], [0] * (a[1] * a[2]))
            return None
        if command == DELETE:
            return None if images.pop(a[0], None) else invalid_operation

        def outside(image: int, x: int, y: int, w: int, h: int) -> bool:
            return x + w > images[image][0] or y + h > images[image][1]

        image, x, y, w, h = (a[3], *a[4:8]) if command == COPY else (a[0], *a[1:5])
        if image not in images or (command == COPY and a[0] not in images):
            return invalid_operation
        if outside(image, x, y, w, h) or (command == COPY and outside(a[0], a[1], a[2], w, h)):
            return invalid_value
        if command == CLEAR:
            rows = [[a[5]] * w] * h
        elif command == COPY:
            width, _, old = images[a[0]]
            rows = [old[(a[2] + k) * width + a[1]:][:w] for k in range(h)]
        else:
            flat = texels_of(a[5], self.uploaded(s, command, a, data))
            rows = [flat[k * w:][:w] for k in range(h)]
        width, _, texels = images[image]
        for k, row in enumerate(rows):
            texels[(y + k) * width + x:(y + k) * width + x + w] = row
        return None

    @staticmethod
    def uploaded(s: Stream, command: int, a: list[int], data: bytes) -> bytes:
        count = a[3] * a[4] * BYTES_OF_FORMAT[a[5]]
        if command == UPLOAD:
            return data[a[7] % 4:][:count]
        return (
            s.buckets[a[6]][:count] if command == UPLOAD_BUCKET else s.buffers[a[6]][a[7] :][:count]
        )


class Run(Standings[Stream]):
    """The history of a script by the rule for one thread."""

    def __init__(self, script: Reader) -> None:
        super().__init__(script, [Stream(plan) for plan in script.plans])
        while any(
            not s.gone and (s.left or s.plan.closed() or self.has_flush(s)) for s in self.streams
        ):
            self.round()

    @staticmethod
    def has_flush(s: Stream) -> bool:
        return any(action.kind == "flush" for action in s.plan.actions[s.next:])

    def live(self) -> list[tuple[int, Stream]]:
        return [(number, s) for number, s in enumerate(self.streams, 1) if not s.gone]

    def round(self) -> None:
        for number, s in self.live():
            self.go(number, s)
        for number, s in self.live():
            if s.next < len(s.plan.actions) and s.plan.actions[s.next].kind == "close":
                self.end(number, s, "closed", f"close {number}")
        while ready := [(s.plan.priority, s.left[0][0], number) for number, s in self.live()
                        if s.left
                        and not any(w[:2] == (number, s.left[0][0]) for w in self.pending)]:
            self.serve(min(ready)[2])

    def go(self, number: int, s: Stream) -> None:
        """The client of a stream goes as far as it can."""
        while s.next < len(s.plan.actions) and s.passes():
            action = s.plan.actions[s.next]
            match action.kind:
                case "put":
                    s.words[action.number] = action.value
                case "flush":
                    self.orders += 1
                    for target, release in action.fences:
                        self.wait(number, self.orders, self.number_of(target), release)
                    s.left.append((self.orders, action.number))
                    s.flushes += 1
                    self.events.append(f"order {number} {self.orders} {s.next}")
                case _ if action.reads:
                    s.read.append((s.next, action.number, s.results.get(action.number, 0)))
            s.next += 1

    def serve(self, number: int) -> None:
        s = self.streams[number - 1]
        order, put = s.left[0]
        while s.entries % s.plan.ring != put:
            try:
                command, a, words, size = fetched_command(s)
            except Lost as lost:
                self.end(
                    number, s, f"lost {lost.code}", f"lost {number} {lost.code}" + shown(lost.words)
                )
                return
            self.events.append(f"step {number}" + shown(words))
            s.entries += size
            s.fetched += len(words)
            if self.execute(number, order, s, command, a, words[1 + len(a):]):
                return
        s.left.pop(0)
        s.finished += 1
        self.events.append(f"finish {number} {order}")
        self.settle()
