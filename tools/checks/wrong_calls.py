"""Calls of the Python package with wrong arguments: each raises ScriptError, with one sentence."""

from collections.abc import Callable
from pathlib import Path
from typing import Any

from tools.checks.tally import Tally
from zorvleid import Script, ScriptError, Stream, disassemble, read_script
from zorvleid.errors import Refused

Call = Callable[[Any], object]  # of a stream, whose arguments no type checker sees
MADE: Any = Script  # so that it does not see those of a script either
WHOLE, LARGE = "has to be a whole number, not", "has to be a number from 0 to"
# The kind of a fault, its sentence, and the call.
CALLS: tuple[tuple[str, str, Call], ...] = (
    ("whole", f"width {WHOLE} 2.5", lambda it: it.create_image(image=1, width=2.5, height=1)),
    ("whole", f"image {WHOLE} '1'", lambda it: it.create_image(image="1", width=2, height=1)),
    ("whole", f"release {WHOLE} None", lambda it: it.insert_fence(release=None)),
    ("whole", f"token {WHOLE} True", lambda it: it.set_token(token=True)),
    ("whole", f"PLACE {WHOLE} '0'", lambda it: it.put("0", [1])),
    ("whole", f"value {WHOLE} '1'", lambda it: it.put(0, ["1"])),
    ("whole", f"value {WHOLE} 0.5", lambda it: it.word(1, 0.5)),
    ("whole", f"data {WHOLE} 'a'", lambda it: it.noop(size=4, data="abc")),
    ("whole", f"M {WHOLE} [0]", lambda it: it.memory([0], 4)),
    ("whole", f"WORDS {WHOLE} 4.0", lambda it: it.results(0, 4.0)),
    ("whole", f"T {WHOLE} '5'", lambda it: it.token("5")),
    ("whole", f"PUT {WHOLE} '5'", lambda it: it.flush("5")),
    ("whole", f"RELEASE {WHOLE} '1'", lambda it: it.flush(after=[(it, "1")])),
    ("whole", f"RING {WHOLE} '16'", lambda it: MADE().stream(ring="16")),
    ("whole", f"version {WHOLE} '1'", lambda it: MADE("1")),
    ("number", f"height {LARGE} 4294967295, not '-1'",
     lambda it: it.create_image(image=1, width=1, height=-1)),
    ("numbers", "value has to be numbers, not 5", lambda it: it.put(0, 5)),
    ("numbers", "data has to be numbers, not 5",
     lambda it: it.set_bucket_data_immediate(bucket=0, offset=0, data=5)),
    ("format", "format has to be RGBA8, RGB565, RGBA4444, L8 or a number, not '2.5'",
     lambda it: it.upload_bucket(image=1, x=0, y=0, w=1, h=1, format=2.5, bucket=0)),
    ("after", "a fence is a stream and a release, not a stream alone",
     lambda it: it.flush(after=[it])),
    ("after", "a fence is a stream and a release, not a stream alone",
     lambda it: it.flush(after=it)),
    ("after", "a fence is a stream and a release, not (1,)", lambda it: it.flush(after=[(1,)])),
    ("after", "a fence is a stream and a release, not ('a', 1)",
     lambda it: it.flush(after=[("a", 1)])),
    ("after", "a fence is a stream and a release, not 1", lambda it: it.flush(after=1)),
    ("command", "no command is called 'Foo'", lambda it: it.command("Foo", {})),
    ("no name", "streams of version 1 have no names: the next one is stream 1",
     lambda it: MADE().stream(name=(3, 1))),
    ("next", "the next stream is 1, not 5", lambda it: MADE().stream(name=(0, 5))),
    ("name", "a name is a namespace and an id, not 5", lambda it: MADE().stream(name=5)),
    ("name", "a name is a namespace and an id, not 'a'",
     lambda it: MADE(version=2).stream(name="a")),
    ("a text", "-:2:1: this is a text of commands, and no script: `assemble` makes one of it",
     lambda it: disassemble(read_script("# of two lines\ngpu-commands 1\n"))),
    ("an output", "-:1:1: this is an output of `run`, and no script",
     lambda it: read_script("order 1 1 2\n")),
)
KINDS = {kind for kind, *_ in CALLS}


def check(top: Path, program: Path, tally: Tally) -> None:
    """Reports each call that raises something else."""
    for kind, wanted, call in CALLS:
        tally.tell(f"a call that is refused by `{kind}`: {wanted}", fault_of(kind, wanted, call))


def stream() -> Stream:
    """A stream with some room, in a script of its own."""
    return Script().stream(ring=64)


def fault_of(kind: str, wanted: str, call: Call) -> str | None:
    """The fault of a refusal, or None."""
    try:
        call(stream())
    except (ScriptError, Refused) as refused:
        got = (refused.kind, str(refused))
        return None if got == (kind, wanted) else f"it is refused by {got}"
    except Exception as fault:  # which no call should raise
        return f"it ends with {fault!r}"
    return "it is not refused"
