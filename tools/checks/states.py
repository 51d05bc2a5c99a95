"""What `state` and `who` say, against tests/model_state.py: after each event, and of each texel.

Without the script the same is said, except about fences that were gone with their stream, and about
get if a ring was never gone round.
"""

import json
from collections.abc import Iterator
from pathlib import Path
from typing import Any

from tests import model, model_state
from tests.model_history import journal_end
from tests.model_script import Reader, Refused
from tools.checks import answers, logs, stats
from tools.checks.tally import Tally
from view import state, texels
from view.history import standing_after
from view.script import Script
from zorvleid.output import Output, read_output

TEXELS_AT_MOST = 100  # of one output
Record = dict[str, Any]


def check(top: Path, program: Path, tally: Tally) -> None:
    """Reports each run of which something else is said."""
    schemas = {name: json.loads((top / f"docs/{name}.schema.json").read_text(encoding="utf-8"))
               for name in ("state", "who")}
    for name, script, output in stats.runs(top, program):
        try:
            reader = Reader(script)
        except Refused:
            continue
        lines = script.decode("latin-1").split("\n")
        read = read_output(output)
        tally.tell(f"state of {name}",
                   fault_of_states(reader, read, Script(lines), schemas["state"]))
        tally.tell(f"who made {name}", fault_of_texels(reader, read, schemas["who"]))
    check_calls(top, program, tally)


def states(reader: Reader, output: Output) -> Iterator[Record]:
    """How things stand before the first event, and after each one, by the model."""
    history = model_state.Painted(reader)
    for count in range(len(output.events) + 1):
        if count:
            history.take(output.events[count - 1].text)
        yield {**model_state.record(history), "events": len(output.events)}


def fault_of_states(
    reader: Reader, output: Output, script: Script, schema: Record
) -> str | None:
    """The first state that is another one than the model's."""
    told = [state.record(output, standing_after(output, 0, script))]
    plain = [state.record(output, standing_after(output, 0))]
    whole = len(output.events)
    standing_after(output, whole, script, lambda *it: told.append(state.record(output, it[3])))
    standing_after(output, whole, None, lambda *it: plain.append(state.record(output, it[3])))
    for count, (got, without, wanted) in enumerate(zip(told, plain, states(reader, output))):
        if got != wanted:
            return f"after event {count} it is {got}, and {wanted} is wanted"
        if known(without) != known(wanted):
            return f"without the script it is {without} after {count}, and {wanted} is wanted"
    middle = json.loads(json.dumps(told[whole // 2]))
    fault = logs.fault_of_schema(middle, schema, schema)
    return f"its JSON {fault}" if fault else None


def known(told: Record) -> Record:
    """What is known without the script: all but get and the pending waits."""
    streams = [{**stream, "get": 0} for stream in told["streams"]]
    return {**told, "streams": streams, "waits": []}


def fault_of_texels(reader: Reader, output: Output, schema: Record) -> str | None:
    """The first texel of which something else is said, at the end and in the middle of a run."""
    for count in (len(output.events), len(output.events) // 2):
        history, writes = model_state.Painted(reader), texels.Writes()
        for event in output.events[:count]:
            history.take(event.text)
        pictures = standing_after(output, count, watch=writes).images.pictures
        every = [texels.Texel(image, x, y) for image, picture in sorted(pictures.items())
                 for x in range(min(picture.width, 40)) for y in range(min(picture.height, 40))]
        for texel in every[::1 + len(every) // TEXELS_AT_MOST]:
            width, _, values = history.images[texel.image]
            value = values[texel.y * width + texel.x]
            told = json.loads(json.dumps(texels.record(writes, texel, value)))
            wanted = model_state.made(history, *texel)
            got = [{key: command[key] for key in ("event", "command", "texel", "source", "bytes")}
                   for command in told["commands"]]
            if got != wanted:
                return f"{texel} after event {count}: {got}, and {wanted} is wanted"
            if len(list(texels.lines(writes, texel, value))) != 1 + 2 * len(wanted):
                return f"{texel} after event {count} has too few lines"
        fault = logs.fault_of_schema(told, schema, schema) if every else None
        if fault is not None:
            return f"the JSON of {texel} {fault}"
    return None


def check_calls(top: Path, program: Path, tally: Tally) -> None:
    """Both as they are called: what they write of an example is what the model says."""
    reader = Reader((top / "examples/crossed_waits.script").read_bytes())
    output = read_output((top / "examples/crossed_waits.stdout").read_bytes())
    wanted = list(states(reader, output))
    for at, words in ((4, "--at 4"), (len(output.events), "")):
        ran = answers.called(top, program, ["state", "crossed_waits.stdout", "--json", "--script",
                                            "crossed_waits.script", *words.split()])
        tally.tell(f"state, as it is called with {words}",
                   None if ran.returncode == 0 and json.loads(ran.stdout) == wanted[at]
                   else str(ran))
    given = (top / "examples/crossed_waits.stdout").read_bytes().splitlines(True)
    ran = answers.called(top, program, ["state", "-", "--json", "--script", "crossed_waits.script"],
                         b"".join(given[:7]))
    is_so = ran.returncode == 0 and json.loads(ran.stdout) == {**wanted[7], "events": 7}
    tally.tell("state of an output that is cut",
               None if is_so and ran.stderr == b"note: the output ends here\n" else str(ran))
    history = model_state.Painted(Reader((top / "examples/compositor.script").read_bytes()))
    lines = (top / "examples/compositor.stdout").read_text().split("\n")[len(model.head(history)):]
    for line in lines[:journal_end(lines)]:
        history.take(line)
    ran = answers.called(top, program, ["who", "--image", "3", "--texel", "5,4", "--json",
                                        "compositor.stdout"])
    told = json.loads(ran.stdout) if ran.returncode == 0 else {}
    events = [command["event"] for command in told.get("commands", ())]
    width, _, values = history.images[3]
    is_so = events == [made["event"] for made in model_state.made(history, 3, 5, 4)]
    is_so = is_so and told["value"] == f"{values[4 * width + 5]:08x}"
    tally.tell("who, as it is called", None if is_so else str(ran))
