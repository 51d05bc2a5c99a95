"""Times the built program on large inputs, which are made here, and prints a table.

    bench/run [--program PATH] [--runs N] [--small] [--only TEXT] [--hostile]

Each row is the best of N runs (3 if left out), from a file and into a file. It has the seconds and
the peak of the memory of that run; 9 MB stands for less. Beside two rows stands the best time of
`cat` on the bytes that the program reads or writes. A run that takes a minute is not repeated. One
that takes an hour is given up. With --small each input is a small part of its size, to try the
bench itself. With --only there are only the rows whose names begin with the text.

The rows of workers are called g1c, g2c, g1e and so on, by the number of workers. There is one for
each number that the machine has processors for. c is the generated script. e is many flushes that
wait for each other; a row without workers has them too. The rows of growth are a quarter, a half
and the whole of one input: their seconds grow in proportion. --hostile asks for other rows
(bench/greatest.py): the script that has most of one command, fence, line or event, with no workers
and with two. The bench is no part of the gate, but tools/check runs a small part of each of these
rows (tools/checks/costs.py).
"""

import argparse
import os
import sys
import tempfile
from collections.abc import Iterator
from pathlib import Path

from bench import fences, greatest
from bench.measure import Row, WrongStatus, hostile_rows, measure
from tests import large, model
from tools.places import PROGRAM, TOP

HEAD = "gpu-script 1\n"


# --- Inputs ---


def put_lines(count: int) -> str:
    """`count` lines of one action each."""
    puts = "".join(f"put {at % 4096} {at:x}\n" for at in range(count))
    return HEAD + "stream 1 normal 4096\n" + puts


def value_lines(count: int) -> str:
    """`count` lines of 4,000 values each."""
    return HEAD + "stream 1 normal 4096\n" + "".join(
        "put 0 " + " ".join(f"{line * 4000 + at:x}" for at in range(4000)) + "\n"
        for line in range(count))


def many_waits(flushes: int) -> str:
    """Sixteen streams that order all their flushes at once, with two waits in each but the first.

    The first stream raises its release with each of its flushes, which ends the first kind of
    waits. The second kind is on the stream before, at a release that never comes. It ends when that
    stream has finished all of its flushes.
    """
    releases = min(flushes, 1365)
    puts = "".join(f" 20000003 {at:x} 0" for at in range(1, releases + 1))
    lines = [HEAD, "stream 1 normal 4096\n", f"put 0{puts}\n"]
    lines += [f"flush {3 * at}\n" for at in range(1, releases + 1)]
    for stream in range(2, 17):
        lines.append(f"stream {stream} normal 16\n")
        lines += [
            f"flush 0 1 {at % releases + 1} {stream - 1} 4000000000\n" for at in range(flushes)
        ]
    return "".join(lines)


def dropped_waits(flushes: int, numbers: int) -> str:
    """A stream that waits 512 times in each flush for one with later numbers: none is kept."""
    half = " 20200004 2 ffffffff 0" * 512
    return (HEAD + f"stream 1 normal 4096\nput 0{half}{half}\n"
            + "".join(f"flush {2048 if at % 2 == 0 else 0}\n" for at in range(flushes))
            + "stream 2 normal 16\n" + "flush 0\n" * numbers)


def drawing(streams: int, flushes: int) -> str:
    """Streams that clear, copy and upload, again and again over the same words.

    A flush has 81 blocks: a clear and a copy of 256 by 256 texels, and an upload of 16 by 16. It
    fetches 22,762 words, so a stream may fetch the words of 46 flushes.
    """
    lines = [HEAD]
    for stream in range(1, streams + 1):
        block = (f" 20800007 {stream} 0 0 100 100 {stream:x}00ff"
                 f" 20a00009 {stream} 0 0 {stream} 80 80 100 100"
                 f" 20c00009 {stream} 8 8 10 10 1 0 0")
        half = block * 81 + " 17" + " 0" * 22
        lines += [f"stream {stream} normal 4096\n", "memory 0 256\n",
                  f"put 0 20400004 {stream} 200 200 7fc\n", "flush 2048\n",
                  "finish\n", "fill 0 0" + " 10203040" * 256 + "\n", f"put 0{half}{half}\n"]
        lines += [f"flush {0 if at % 2 == 0 else 2048}\n" for at in range(flushes)]
    return "".join(lines)


def crossing_waits(rounds: int) -> str:
    """Sixteen streams whose flushes wait for all others, in rounds; 13 rounds are 13 MB.

    A round has as many flushes as fit in a ring, each of one wait, one release and one token. The
    ten fences of a flush are on releases that come later in the round, so most of them are kept.
    """
    flushes = 4096 // 9
    lines = [HEAD]
    for stream in range(1, 17):
        lines.append(f"stream {stream} {('high', 'normal', 'low')[stream % 3]} 4096\n")
        for begin in range(0, rounds * flushes, flushes):
            for at in range(flushes):
                release = begin + at + 1
                other = (stream + 5 * at) % 16 + 1
                lines.append(
                    f"put {9 * at} 20200004 {other:x} {max(release - 32, 0):x} 0 20000003 "
                    f"{release:x} 0 200002 {release:x}\n")
                fences = "".join(
                    f" {(stream + at + 3 * fence) % 16 + 1} "
                    f"{begin + min(at + 40 * fence, flushes - 1) + 1}"
                    for fence in range(10))
                last = at + 1 == flushes
                if last:
                    lines.append(f"put {9 * flushes} {4096 - 9 * flushes:x}\n")
                lines.append(f"flush {0 if last else 9 * at + 9}{fences}\n")
            lines.append("finish\n")
    return "".join(lines)


def full_journal(flushes: int) -> str:
    """A stream that runs half a ring of SetToken with each flush; 460 print nearly 16 MB."""
    return (HEAD + "stream 1 normal 4096\nput 0" + " 200002 1" * 2048 + "\n"
            + "".join(f"flush {2048 if at % 2 == 0 else 0}\n" for at in range(flushes)))


def growing(part: int) -> Iterator[Row]:
    """Three inputs, each at a quarter, a half and the whole of its size."""
    for share in (4, 2, 1):
        size = 2000 // part // share
        yield Row(f"growth: the generated script of size {size}", ["run"], model.generate(size, 1))
    for share in (4, 2, 1):
        count = 990_000 // part // share
        yield Row(f"growth: {count:,} put lines, checked", ["check"], put_lines(count))
    for share in (4, 2, 1):
        count = 240 // part // share
        yield Row(f"growth: {count} lines of 4,000 values, checked", ["check"], value_lines(count))


def rows(small: bool) -> list[Row]:
    part = 40 if small else 1
    size = 2000 // part
    generated = model.generate(size, 1)
    crossing = crossing_waits(13 // min(part, 13))
    counts = [count for count in (1, 2, 4, 8) if count <= (os.cpu_count() or 1)]
    picture = large.largest_images()[0].replace(" 400 ", f" {1024 // part:x} ")
    return [
        Row("the largest picture", ["run"], picture, "output"),
        Row(f"the generated script of size {size}", ["run"], generated),
        Row(f"trial {size} 1", ["trial", str(size), "1"]),
        Row(f"{990_000 // part:,} put lines, checked", ["check"], put_lines(990_000 // part),
            "input"),
        Row(f"16 streams, {30_000 // part:,} flushes with two waits each", ["run"],
            many_waits(2000 // part)),
        Row(f"{400 // part} flushes of 512 dropped waits, beside {60_000 // part:,} higher numbers",
            ["run"], dropped_waits(400 // part, 60_000 // part)),
        Row("clears, copies and uploads up to the quota", ["run"], drawing(4, 46 // min(part, 8))),
        Row(f"verify of the generated script of size {size}", ["verify"], generated),
        Row("verify of a journal of nearly 16 MB", ["verify"], full_journal(460 // part)),
        Row("16 streams, flushes that wait for each other", ["run"], crossing),
        *(Row(name, ["run"], text) for name, text in fences.scripts(part)),
        *(Row(f"g{count}c: the generated script of size {size}", ["run", "--workers", str(count)],
              generated) for count in counts),
        *(Row(f"g{count}e: 16 streams, flushes that wait for each other",
              ["run", "--workers", str(count)], crossing)
          for count in counts),
        *growing(part),
    ]


def main() -> int:
    parser = argparse.ArgumentParser(
        prog="bench/run", description="Times the program on large inputs."
    )
    parser.add_argument("--program", type=lambda text: Path(text).resolve(), default=TOP / PROGRAM)
    parser.add_argument("--runs", type=int, default=3)
    parser.add_argument(
        "--small", action="store_true", help="small parts of the inputs, to try the bench"
    )
    parser.add_argument("--only", default="", metavar="TEXT", help="rows whose names begin so")
    parser.add_argument("--hostile", action="store_true",
                        help="the greatest script of each kind, in place of the other rows")
    asked = parser.parse_args()
    if not asked.program.exists():
        raise SystemExit(f"{asked.program} is missing: run tools/build")
    print("| Input | Bytes read | Bytes written | Seconds | Peak MB | cat |")
    print("|---|---|---|---|---|---|")
    failed = 0
    with tempfile.TemporaryDirectory() as folder:
        if asked.hostile:
            made = list(hostile_rows(greatest.scripts(40 if asked.small else 1)))
        else:
            made = rows(asked.small)
        for row in (row for row in made if row.name.startswith(asked.only)):
            try:
                seconds, peak, cat, read, wrote = measure(
                    row, asked.program, asked.runs, Path(folder)
                )
            except WrongStatus as wrong:
                print(f"| {row.name} | | | {wrong} | | |", flush=True)
                failed += 1
                continue
            beside = f"{cat:.3f}" if cat is not None else ""
            print(f"| {row.name} | {read:,} | {wrote:,} | {seconds:.3f} | {peak:.0f} | {beside} |",
                  flush=True)
    return 1 if failed else 0


if __name__ == "__main__":
    sys.exit(main())
