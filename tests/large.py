"""The cases that are too large to be stored: their standard input, and the program's output.

    python3 -m tests.large NAME script    writes the script of a case of tests/cases/large
    python3 -m tests.large NAME output    writes its output

Beside a case, NAME.script.sum and NAME.stdout.sum have the length and the SHA-256 of the text.
"""

import argparse
import hashlib
import sys

from tests import limits, model
from zorvleid import output as outputs

HEAD, lines = limits.HEAD, limits.lines


def largest_images() -> tuple[str, str]:
    """One image of all texels that there may be, and one texel more."""
    script = HEAD + lines(
        "stream 1 normal 16", "put 0 20400004 1 1000 400 20400004 2 1 1", "flush 8"
    )
    row = " ".join(["00000000"] * 4096) + "\n"
    output = lines("order 1 1 8",
                   "step 1 0:20400004 1:00000001 2:00001000 3:00000400",
                   "step 1 4:20400004 5:00000002 6:00000001 7:00000001",
                   "finish 1 1",
                   "image 1 4096 1024")
    return (
        script, output + row * 1024 + "stream 1 done entries 8 release 0 token 0 words 8 errors 0 "
                                      "0 1\n"
    )


def quota() -> tuple[str, str]:
    """As many words as a stream may fetch and one command more, half a ring with each flush."""
    puts = [(0 if flush % 2 else 2048) for flush in range(513)]
    script = HEAD + lines(
        "stream 1 normal 4096", "put 0" + " 200002 1" * 2048, *(f"flush {put}" for put in puts)
    )
    halves = [
        "".join(f"step 1 {at}:00200002 {at + 1}:00000001\n" for at in range(start, start + 2048, 2))
        for start in (0, 2048)
    ]
    parts = [f"order 1 {number} {number + 4095}\n" for number in range(1, 514)]
    for number in range(1, 513):
        parts += [halves[(number - 1) % 2], f"finish 1 {number}\n"]
    parts += ["lost 1 6 0:00200002\n",
              "stream 1 lost 6 entries 1048576 release 0 token 1 words 1048576 errors 0 0 0\n"]
    return script, "".join(parts)


def longest_script() -> tuple[str, str]:
    """A script of as many bytes as one may have."""
    return HEAD + "#" * (model.BYTES_AT_MOST - len(HEAD)), ""


def script_too_long() -> tuple[str, str]:
    return longest_script()[0] + "#", ""


THOUSAND_PUTS = "put 3096" + " 1" * 1000 + "\n"


def line_past_the_actions() -> tuple[str, str]:
    """A line of a thousand actions, the last of which is one too many."""
    return HEAD + "stream 1 low 4096\n" + THOUSAND_PUTS * 999 + "token 1\n" + THOUSAND_PUTS, ""


def generated_200_1() -> tuple[str, str]:
    script = model.generate(200, 1)
    return script, model.answer(["run"], script.encode())[1]


def verify_generated_200_1() -> tuple[str, str]:
    script, output = generated_200_1()
    data = output.encode()
    read = outputs.read_output(data)
    return (
        script + "journal\n" + output,
        f"yes events {read.event_count}\n" + outputs.picture_text(data, read).decode(),
    )


MAKERS = {
    maker.__name__: maker
    for maker in (largest_images, quota, longest_script, script_too_long, line_past_the_actions,
                  generated_200_1, verify_generated_200_1)
} | limits.MAKERS


def has_sum(data: bytes, text: str) -> bool:
    """Whether the bytes have the length and the SHA-256 that a text says."""
    return text.split() == [str(len(data)), hashlib.sha256(data).hexdigest()]


def main() -> int:
    parser = argparse.ArgumentParser(prog="tests.large", description="Writes a large text.")
    parser.add_argument("name", metavar="NAME", choices=MAKERS, help="a case of tests/cases/large")
    parser.add_argument("part", choices=("script", "output"))
    asked = parser.parse_args()
    sys.stdout.write(MAKERS[asked.name]()[asked.part == "output"])
    return 0


if __name__ == "__main__":
    sys.exit(main())
