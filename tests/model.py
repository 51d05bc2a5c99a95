"""The program on one thread, written a second time and slowly, for tests and large cases.

It shares nothing with the crates, and keeps no counters where it can look again. `answer(words,
text)` gives the status, the output and the line on standard error of `run`, `check`, `generate` and
`trial`; `verify` is left out. model_history.py judges histories of other runs, as those on threads.
"""

from collections.abc import Iterable

from tests.model_run import S, Run, Standings, Stream
from tests.model_script import Reader, Refused, decimal

BYTES_AT_MOST = 16_777_216
BASE = 1000


def output(run: Run) -> str:
    return joined(head(run) + run.events + rest(run) + dumps(run))


def joined(text: Iterable[str]) -> str:
    return "".join(line + "\n" for line in text)


def head(run: Standings[S]) -> list[str]:
    """The lines before the journal."""
    if run.version == 1:
        return []
    return ["gpu-journal 2"] + [
        f"name {n} {s.plan.name[0]} {s.plan.name[1]}" for n, s in enumerate(run.streams, 1)
    ]


def rest(run: Standings[S]) -> list[str]:
    """The lines that follow from the journal: the images, how each stream ended, and the marks."""
    text = []
    for image, (width, height, texels) in sorted(run.images.items()):
        text.append(f"image {image} {width} {height}")
        text += [
            " ".join(f"{t:08x}" for t in texels[y * width : (y + 1) * width]) for y in range(height)
        ]
    for number, s in enumerate(run.streams, 1):
        text.append(
            f"stream {number} {s.gone or 'done'} entries {s.entries} release {s.release} token "
            f"{s.token} "
            f"words {s.fetched} errors " + " ".join(map(str, s.errors)))
    how_much = {"release": 0, "guard": 1, "closed": 2}
    for number, order, to, release, how in run.endings:
        text.append(
            f"mark {number} {order} {to} {release} {how} "
            f"{(BASE + 4 * order + how_much[how]) % 2**32}")
    return text


def dumps(run: Standings[S]) -> list[str]:
    return [f"dump {number} {at} {place} {v:08x}" for number, s in enumerate(run.streams, 1)
            if s.gone in (None, "closed") for at, place, v in dumps_of(s)]


def dumps_of(s: Stream) -> list[tuple[int, int, int]]:
    late = [(at, a.number, s.results.get(a.number, 0)) for at, a in enumerate(s.plan.actions)
            if at >= s.next and a.reads]
    return s.read + late


def generate(size: int, seed: int) -> str:
    state = seed

    def draw() -> int:
        nonlocal state
        state = (1664525 * state + 1013904223) % 2**32
        return state

    def small(below: int) -> int:
        return draw() // 65536 % below

    text = ["gpu-script 1"]
    for s, priority in enumerate(("low", "low", "normal", "high"), 1):
        text += [f"stream {s} {priority} 64", "memory 0 16", f"put 0 20400004 {s} 10 10 1c",
                 "flush 32", "finish"]
        for j in range(1, size + 1):
            o, a, b, t = 1 + small(4), small(16), small(16), draw()
            c, d, v = small(16), small(16), draw()
            base, put = (32, 0) if j % 2 else (0, 32)
            text += [
                f"put {base} 20200004 {o:x} {j:x} 0 20800007 {s:x} {a:x} {b:x} 1 1 {t:x} 20a00009 "
                f"{o:x} 0 0 {s:x} "
                f"8 8 4 4 20c00009 {s:x} {c:x} {d:x} 1 1 1 0 0 20000003 {j:x} 0",
                f"fill 0 0 {v:x}", f"flush {put}", "finish"]
    return joined(text)


def trial(size: int, seed: int) -> str:
    run = Run(Reader(generate(size, seed).encode()))
    lost = sum(event.startswith("lost ") for event in run.events)
    total = sum(sum(texels) for _, _, texels in run.images.values()) % 2**32
    return (f"trial {size} {seed} events {len(run.events)} lost {lost} images {len(run.images)} "
            f"endings {len(run.endings)} sum {total:08x}\n")


def size_and_seed(words: list[str]) -> tuple[int, int] | None:
    try:
        size, seed = (decimal(word.encode()) for word in words)
    except (Refused, ValueError):
        return None
    return (size, seed) if 1 <= size <= 2000 else None


def answer(words: list[str], text: bytes) -> tuple[int, str, str]:
    """The status, the output and the line on standard error, for text on standard input."""
    if words[:1] in (["generate"], ["trial"]) and (given := size_and_seed(words[1:])):
        return 0, (generate if words[0] == "generate" else trial)(*given), ""
    if words not in (["run"], ["run", "--workers", "0"], ["run", "--workers=0"], ["check"]):
        return 2, "", "bad command line"
    if len(text) > BYTES_AT_MOST:
        return 7, "", "input too long"
    try:
        script = Reader(text)
    except Refused as refused:
        return 5, "", f"refused: line {refused.line}: {refused.kind}"
    if words == ["check"]:
        return (
            0, f"ok streams {len(script.plans)} actions {script.actions} flushes "
               f"{script.flushes}\n", ""
        )
    run = Run(script)
    if any(s.gone and s.gone != "closed" for s in run.streams):
        return 1, output(run), "some streams were lost"
    return 0, output(run), ""
