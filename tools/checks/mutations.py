"""Outputs with a line cut, doubled or changed: the tools refuse the line or show it, and go on."""

import random
from pathlib import Path

from tools.checks import outputs, traces
from tools.checks.tally import Tally
from view import history, page, trace
from zorvleid import output

COUNT = 500
SEED = 20
LONGEST = 20_000
CHARACTERS = "0123456789abcdef :\n\rxZ-\0\xe9"


def check(top: Path, program: Path, tally: Tally) -> None:
    """Reports each mutated output that is neither refused nor shown as it is."""
    texts = [(name, text)
             for name, text in outputs.outputs_of_cases(top, with_large=False)
             if 0 < len(text) <= LONGEST]
    draw = random.Random(SEED)
    refused = 0
    for number in range(COUNT):
        name, text = texts[draw.randrange(len(texts))]
        kind = ("cut", "doubled", "changed")[number % 3]
        mutated = MUTATIONS[kind](text, draw)
        fault, was_refused = fault_of(mutated)
        refused += was_refused
        tally.tell(f"{name} with a line {kind} ({number})", fault)
    check_by_hand(tally)
    tally.tell("mutated outputs",
               None if COUNT // 4 < refused < COUNT else f"{refused} of {COUNT} were refused")


def cut(text: str, draw: random.Random) -> str:
    lines = text.splitlines(True)
    at = draw.randrange(len(lines))
    return "".join(lines[:at] + lines[at + 1:])


def double(text: str, draw: random.Random) -> str:
    lines = text.splitlines(True)
    at = draw.randrange(len(lines))
    return "".join(lines[:at + 1] + lines[at:])


def change(text: str, draw: random.Random) -> str:
    at = draw.randrange(len(text))
    return text[:at] + draw.choice(CHARACTERS.replace(text[at], "")) + text[at + 1:]


# Lines that no case has: a loss out of memory, long numbers, and the lines of live views.
BESIDE = """gpu-journal 2
name 1 255 18446744073709551615
name 2 0 0
order 1 1 0
order 2 2 4294967295
lost 1 memory
finish 2 2
stream 1 lost memory entries 0 release 0 token 4294967295 words 0 errors 0 0 0
stream 2 done entries 0 release 18446744073709551615 token 0 words 0 errors 0 0 0
mark 2 2 1 18446744073709551615 guard 1009
dump 2 4 65535 00000000
view 1 0 00000000
view 1 4 fedcba98
"""
NONE = ("x", "\n", " ", "ok streams 1 actions 2 flushes 1\n",
        "trial 3 77 events 100 lost 0 images 4 endings 3 sum 4af8fca4\n",
        "yes events 1 \n", "image 1 1 1\n", "image 1 0 0\n", "gpu-journal 2\nname 1 0 1\n",
        "gpu-script 1\n",
        BESIDE.replace("65535", "4294967296"), BESIDE.replace("615 guard", "616 guard"),
        BESIDE.replace("view 1 0", "view 1 00"),
        BESIDE.replace("guard 1009", "release 1008"), BESIDE + "order 1 3 0\n")


def check_by_hand(tally: Tally) -> None:
    """Some texts that are outputs, and some that are none."""
    for name, text, wanted in (("an output with all parts", BESIDE, False),
                               ("the empty output", "", False),
                               *((repr(text), text, True) for text in NONE)):
        fault, was_refused = fault_of(text)
        tally.tell(name,
                   fault if was_refused == wanted
                   else f"it is {'refused' if was_refused else 'read'}")


MUTATIONS = {"cut": cut, "doubled": double, "changed": change}


def fault_of(text: str) -> tuple[str | None, bool]:
    """The fault of how a text is shown, or None; and whether it was refused."""
    lines = text.count("\n") + 1
    try:
        read = output.read_output(text.encode("latin-1"))
        images = {image.number: image[1:] for image in read.images}
        if images != outputs.images_of(text):
            return "its images have other texels than are printed", False
        if read.is_verdict:
            return None, False
        page.text(read)
        return traces.fault_of(trace.parts(history.History(read)), text), False
    except output.OutputRefused as refused:
        return None if 1 <= refused.line <= lines else f"{refused}, and there is no such line", True
    except Exception as error:  # this is what must not happen
        return repr(error), False
