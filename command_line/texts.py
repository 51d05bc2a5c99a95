"""What an input is that has no head of a script."""

import re

from .marks import Fault

HEADS = "`gpu-script 1` or `gpu-script 2`"
BEGINS = f"a script begins with the line {HEADS}"
UTF_16 = "the input is UTF-16, and a script is plain ASCII: save it as ASCII"
MARKS = (
    (b"\xef\xbb\xbf", "the input begins with a byte-order mark: save it without one"),
    (b"\xff\xfe", UTF_16),
    (b"\xfe\xff", UTF_16),
    (b"\x1f\x8b", "the input is packed by gzip: unpack it first"),
)
LOOKED_AT = 4096
CONTROLS = re.compile(rb"[\x00-\x08\x0e-\x1f\x7f]")
OUTPUTS = ("gpu-journal", "order", "step", "yes", "image")
COMMANDS = "this is a text of commands, and no script: `assemble` makes one of it"


def is_utf_16(data: bytes) -> bool:
    """Whether every other byte of a text is zero, as in UTF-16 without its mark."""
    front = data[:LOOKED_AT]
    halves = (front[::2], front[1::2])
    return len(front) >= 4 and any(not any(half) for half in halves)


def of_bytes(data: bytes) -> str | None:
    """Why bytes are no text of a script, or None where they may be one."""
    if not data:
        return f"the input is empty; {BEGINS}"
    for mark, said in MARKS:
        if data.startswith(mark):
            return said
    if is_utf_16(data):
        return UTF_16
    if CONTROLS.search(data[:LOOKED_AT]):
        return f"the input is a binary file; {BEGINS}"
    return None


def of_head(words: list[str]) -> Fault:
    """What is wrong with the first line that has words, or with a text that has no such line."""
    if not words:
        return Fault(0, f"the input has no line but blank ones and comments; {BEGINS}")
    if words[0] == "gpu-script" and len(words) == 2:
        return Fault(1, f"there is no such version of scripts; the head is {HEADS}")
    if words[0] == "gpu-commands":
        return Fault(0, COMMANDS)
    if words[0] in OUTPUTS or words[0] == "stream" and "entries" in words:
        return Fault(0, f"this is an output, and no script; {BEGINS}")
    return Fault(0, BEGINS)
