"""Scripts of GPU command buffers: made, run, read and judged, beside the proved program.

>>> from zorvleid import Script, run
>>> script = Script()
>>> painter = script.stream("normal", ring=16)
>>> painter.create_image(image=1, width=2, height=1)
>>> painter.clear_rect(image=1, x=0, y=0, w=2, h=1, texel=0xff0000ff)
>>> painter.flush()
>>> image = run(script).output.images[0]
>>> f"{image.texel(1, 0):08x}"
'ff0000ff'
"""

from .assembler import assemble
from .disassembler import disassemble
from .errors import Refused, ScriptError
from .linter import Note, lint
from .output import (
    Dump,
    Event,
    Image,
    Mark,
    Output,
    OutputRefused,
    StreamEnd,
    View,
    read_output,
)
from .program import Counts, ProgramFault, ProgramRefused, Ran, check, run
from .reader import read_script
from .script import Script, Stream
from .verdict import Verdict, verify

__all__ = [
    "Counts",
    "Dump",
    "Event",
    "Image",
    "Mark",
    "Note",
    "Output",
    "OutputRefused",
    "ProgramFault",
    "ProgramRefused",
    "Ran",
    "Refused",
    "Script",
    "ScriptError",
    "Stream",
    "StreamEnd",
    "Verdict",
    "View",
    "assemble",
    "check",
    "disassemble",
    "lint",
    "read_output",
    "read_script",
    "run",
    "verify",
]
