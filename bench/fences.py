"""Sixteen streams whose flushes have sixteen fences each, for the most pending waits at once.

Every other flush raises the release of its stream by one: a ring has room for half as many commands
as there are flushes.
"""

import random
from collections.abc import Callable, Iterator

STREAMS, FENCES, FLUSHES = 16, 16, 2500
NEVER = 2**64 - 1


def waiting(flushes: int, release_of: Callable[[int], int]) -> Iterator[str]:
    """Streams that wait for releases of the others, each flush for one release of sixteen."""
    releases = flushes // 2
    for stream in range(1, STREAMS + 1):
        targets = [target for target in range(1, STREAMS + 1) if target != stream]
        yield f"stream {stream} normal 4096"
        yield "put 0 " + " ".join(f"20000003 {release + 1:x} 0" for release in range(releases))
        for flush in range(flushes):
            release = release_of(flush // 2)
            fences = (
                f" {targets[(flush + fence) % len(targets)]} {release}" for fence in range(FENCES)
            )
            yield f"flush {3 * (flush // 2 + 1)}{''.join(fences)}"


def closing(flushes: int) -> Iterator[str]:
    """Streams that close with all their waits, which are on a release that does not come."""
    yield from ("stream 1 low 16", "flush 0")
    for stream in range(2, STREAMS + 1):
        yield f"stream {stream} high 16"
        yield from [f"flush 0{f' 1 {NEVER}' * FENCES}"] * flushes
        yield "close"


def scripts(part: int) -> Iterator[tuple[str, str]]:
    """The releases that are waited for rise, fall, come at random, or never come."""
    flushes = FLUSHES // part
    chance = random.Random(1)
    kinds = {
        "releases that rise": waiting(flushes, lambda at: at + 1),
        "releases that fall": waiting(flushes, lambda at: flushes // 2 - at),
        "releases at random": waiting(flushes, lambda at: chance.randint(1, flushes // 2)),
        "streams that close": closing(flushes),
    }
    for name, lines in kinds.items():
        yield f"fences: {name}", "gpu-script 1\n" + "".join(f"{line}\n" for line in lines)
