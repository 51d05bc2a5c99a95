"""What `log` writes: a line an event, causes of failures and losses, selections, and JSON."""

import json
import os
import pty
import re
import subprocess
import tempfile
from collections.abc import Sequence
from pathlib import Path
from typing import Any

from tools.checks import outputs
from tools.checks.tally import Tally
from view import history, log
from view.script import Script
from zorvleid import output

# Scripts of one stream of 64 entries with a memory of 2 words and results of 2: the last command,
# and what is said of it. The rows follow the tables of checks and image operations of
# docs/FORMATS.md.
IMAGE, BUCKET, BUFFER = "20400004 1 2 2", "00400003 0 8", "21000003 0 8"
COMMANDS = (
    ("20800007 3 0 0 1 1 ff", "failed, 0502: image 3 is not there"),
    ("20600002 3", "failed, 0502: image 3 is not there"),
    (f"{IMAGE} 20400004 1 9 9", "failed, 0502: image 1 is there already"),
    ("20400004 2 0 5", "failed, 0501: a side of 0 by 5 is 0 or above 4,096"),
    ("20400004 2 1001 1", "failed, 0501: a side of 4097 by 1 is 0 or above 4,096"),
    (f"{IMAGE} 20800007 1 1 0 2 1 ff",
     "failed, 0501: the rectangle at 1, 0 of 2 by 1 is not inside image 1, which is 2 by 2"),
    (f"{IMAGE} 20a00009 1 0 0 4 0 0 1 1", "failed, 0502: image 4, the target, is not there"),
    (f"{IMAGE} 20a00009 4 0 0 1 0 0 1 1", "failed, 0502: image 4, the source, is not there"),
    (f"{IMAGE} 20a00009 1 0 2 1 0 0 1 1",
     "failed, 0501: the rectangle at 0, 2 of 1 by 1 is not inside image 1, the source, "
                                          "which is 2 by 2"),
    (f"{IMAGE} 20c00009 1 0 0 3 1 4 0 0",
     "failed, 0501: the rectangle at 0, 0 of 3 by 1 is not inside image 1, which is 2 by 2"),
    ("20200004 1 1 0", "dropped: a stream does not wait for itself"),
    ("20200004 7 1 0", "dropped: there is no stream 7"),
    ("20200004 2 1 0", "dropped: stream 2 has no unprocessed number below 1"),
    ("21800006 0 9 0 1 0", "dropped: no stream is called (0, 9)"),
    ("0", "check 1: the size is 0 (word 00000000"),
    ("00200040 1", "check 2: the size is 64, and there is "),
    ("ffe00002 1", "check 3: no command has the id 2047 (word ffe00002"),
    ("00200003 1 1", "check 4: SetToken has 2 entries, and the size is 3 (word 00200003"),
    ("00800003 0 0",
     "check 4: SetBucketDataImmediate has 4 entries or more, and the size is 3 (word 00800003"),
    (f"{IMAGE} 20c00009 1 0 0 1 1 5 0 0",
     "check 6: no format has the number 5 (word 00000005 at place 10)"),
    ("00400003 10 8", "check 7: bucket 16 is above 15 (word 00000010 at place 1)"),
    ("00400003 0 40001", "check 7: 262,145 bytes are more than 262,144 (word 00040001 at place 2)"),
    ("21000003 0 40001", "check 7: 262,145 bytes are more than 262,144 (word 00040001 at place 2)"),
    ("00800005 0 0 5 1",
     "check 8: the data has 4 bytes, and the size is 5 (word 00000005 at place 3)"),
    (f"{BUCKET} 00c00006 0 0 4 0 2",
     "check 8: the offset 2 is not a multiple of 4 (word 00000002 at place 8)"),
    (f"{BUCKET} 00600006 0 0 4 1 0",
     "check 9: memory 1 is not declared (word 00000001 at place 7)"),
    (f"{BUCKET} 00600006 0 0 4 0 5",
     "check 9: the bytes from 5 to 9 go past the end of memory 0, which has 8 (word 00000005 "
                                     "at place 8)"),
    (f"{BUCKET} 00a00007 0 0 0 8 0 4",
     "check 9: the bytes from 4 to 12 go past the end of result memory 0, which has 8 (word "
     "00000008 at place 7)"),
    (f"{BUCKET} 00a00007 0 0 8 8 0 0",
     "check 9: the bytes from 8 to 12 go past the end of result memory 0, which has 8 (word "
     "00000008 at place 6)"),
    (f"{BUCKET} 00600006 0 0 1000 0 4",
     "check 9: the bytes from 4 to 4100 go past the end of memory 0, which has 8 (word 00001000 "
     "at place 6)"),
    (f"{IMAGE} 20c00009 1 0 0 1 7 4 0 2",
     "check 9: the bytes from 2 to 9 go past the end of memory 0, which has 8 (word 00000007 "
     "at place 9)"),
    ("00600006 3 0 4 0 0", "check 11: bucket 3 is not there (word 00000003 at place 1)"),
    (f"{BUFFER} 21000003 0 8", "check 11: buffer 0 is there already (word 00000000 at place 4)"),
    ("21200002 0", "check 11: buffer 0 is not there (word 00000000 at place 1)"),
    (f"{BUCKET} 00600006 0 2 7 0 0",
     "check 12: bucket 0 has 8 bytes, and the range ends at 9 (word 00000007 at place 6)"),
    (f"{IMAGE} {BUCKET} 20e00008 1 0 0 2 2 1 0",
     "check 12: bucket 0 has 8 bytes, and the range ends at 16 (word 00000002 at place 11)"),
    (f"{BUCKET} {BUCKET}", "bucket 0 has 8 bytes already, and keeps them"),
    ("20000003 5 0 20000003 3 0", "the release count stays 5"),
    ("00200002 7 00200002 4", "the token is 4 after 7"),
)
# The largest images there may be and one texel more, without the long lines of the images.
FULL = """order 1 1 8
step 1 0:20400004 1:00000001 2:00001000 3:00000400
step 1 4:20400004 5:00000002 6:00000001 7:00000001
finish 1 1
stream 1 done entries 8 release 0 token 0 words 8 errors 0 0 1
"""
FULL_SAID = "; failed, 0505: all images together would have 4,194,305 texels, more than 4,194,304"
LONG = ("generate", "800", "1")
LINE = re.compile(
    r" *(\d+)  stream (\d+)(?: \(\d+, \d+\))?  (?:order (\d+)|no order)  (.+)"
)


def check(top: Path, program: Path, tally: Tally) -> None:
    """Reports each thing that `log` writes and should not."""
    for commands, wanted in COMMANDS:
        tally.tell(f"log of {commands}", fault_of_command(top, program, commands, wanted))
    tally.tell("log of too many texels",
               None if lines_of(FULL)[2].endswith(FULL_SAID) else lines_of(FULL)[2])
    schema = json.loads((top / "docs/log.schema.json").read_text(encoding="utf-8"))
    for path in sorted((top / "examples").glob("*.stdout")):
        tally.tell(f"log of {path.stem}", fault_of_example(top, path, schema))
    check_choices(top, tally)
    check_calls(top, tally)
    check_progress(top, program, tally)


def called(
    top: Path, words: Sequence[str | Path], text: str = ""
) -> "subprocess.CompletedProcess[str]":
    """A tool as it is called, in the folder of the examples."""
    return subprocess.run([top / "view/run", *words], input=text, capture_output=True, text=True,
                          check=False, cwd=top / "examples")


def lines_of(text: str, script: str | None = None, as_json: bool = False) -> list[str]:
    """The whole log of an output."""
    plans = Script(script.splitlines()) if script else None
    return list(
        log.lines(history.History(output.read_output(text.encode()), plans), log.Choice(), as_json)
    )


def fault_of_command(top: Path, program: Path, commands: str, wanted: str) -> str | None:
    """The fault of what is said of the last command of some, or None. The script is known."""
    count = len(commands.split(" "))
    script = (
        f"gpu-script 1\nstream 1 normal 64\nmemory 0 2\nresults 0 2\nput 0 {commands}\nflush "
        f"{count}\nstream 2 normal 16\n"
    )
    ran = subprocess.run(
        [program, "run"], input=script, capture_output=True, text=True, check=False
    )
    told = lines_of(ran.stdout, script)
    line = next((line for line in reversed(told) if "  finish: " not in line), "")
    return None if f"; {wanted}" in line else f"wanted {wanted!r}, got {line!r}"


def fault_of_example(top: Path, path: Path, schema: dict[str, Any]) -> str | None:
    """The fault of the log of an example: its lines, their streams and numbers, and its JSON."""
    text = path.read_text()
    journal = [line.split(" ") for line in text.split("\n") if line.startswith(outputs.EVENTS)]
    lines = lines_of(text)
    records = [json.loads(line) for line in lines_of(text, as_json=True)]
    if not len(lines) == len(records) == len(journal):
        return f"{len(journal)} events, {len(lines)} lines, {len(records)} records"
    known = {words[2]: words[1] for words in journal if words[0] == "order"}
    for number, (words, line, record) in enumerate(zip(journal, lines, records), 1):
        found = LINE.fullmatch(line)
        if (
            found is None
            or [found[1], found[2]] != [str(number), words[1]]
            or known.get(found[3], words[1]) != words[1]
        ):
            return f"the line of event {number} is {line!r}"
        if (record["text"], record["what"], record["event"]) != (" ".join(words), found[4], number):
            return f"the record of event {number} is {record}"
        if (record["result"] == "lost") != (words[0] == "lost"):
            return f"the result of event {number} is {record['result']}"
        if (fault := fault_of_schema(record, schema, schema)) is not None:
            return f"the record of event {number} {fault}"
    marks = [line.split(" ")[1:6] for line in text.split("\n") if line.startswith("mark ")]
    ended = [[str(wait[key]) for key in ("stream", "order", "target", "release", "how")]
             for record in records for wait in record["ended"]]
    return None if marks == ended else f"the waits that ended are {ended}, and the marks {marks}"


# --- A reader of the few words of JSON Schema that docs/log.schema.json uses ---

KINDS = {"object": dict, "array": list, "string": str, "integer": int, "boolean": bool,
         "null": type(None)}
KNOWN = {"$schema", "$defs", "$ref", "title", "description", "type", "required",
         "additionalProperties", "properties", "enum", "items", "minimum"}


def fault_of_schema(value: object, schema: dict[str, Any], whole: dict[str, Any]) -> str | None:
    """The part of a value that breaks its schema, or None."""
    if unknown := schema.keys() - KNOWN:
        return f"has a schema with {unknown}"
    if "$ref" in schema:
        return fault_of_schema(value, whole["$defs"][schema["$ref"].rpartition("/")[2]], whole)
    kinds = schema.get("type", [])
    kinds = [kinds] if isinstance(kinds, str) else kinds
    if kinds and not any(type(value) is KINDS[kind] for kind in kinds):
        return f"has {value!r}, which is none of {kinds}"
    is_low = isinstance(value, int) and value < schema.get("minimum", value)
    if is_low or "enum" in schema and value not in schema["enum"]:
        return f"has {value!r} out of its range"
    if isinstance(value, dict):
        return fault_of_object(value, schema, whole)
    faults = (fault_of_schema(item, schema["items"], whole)
              for item in (value if isinstance(value, list) else ()))
    return next(filter(None, faults), None)


def fault_of_object(
    value: dict[str, Any], schema: dict[str, Any], whole: dict[str, Any]
) -> str | None:
    properties, rest = schema.get("properties", {}), schema.get("additionalProperties", True)
    if missing := [name for name in schema.get("required", ()) if name not in value]:
        return f"lacks {missing}"
    for name, item in value.items():
        if name not in properties and rest is False:
            return f"has {name}, which the schema does not know"
        if fault := fault_of_schema(
            item, properties.get(name, rest if isinstance(rest, dict) else {}), whole
        ):
            return fault
    return None


# --- Selections, and facts that the script adds ---


def check_choices(top: Path, tally: Tally) -> None:
    """Each choice takes the events that a plain reading of the journal takes."""
    of = {name: history.History(output.read_output((top / f"examples/{name}.stdout").read_bytes()))
          for name in ("crossed_waits", "lost_stream")}
    none: frozenset[int] = frozenset()
    no_words: frozenset[str] = frozenset()
    for name, streams, orders, commands, marks, wanted in (
            ("crossed_waits", {2}, none, no_words, no_words, [2, 4, 10, 11, 12, 13]),
            ("crossed_waits", none, {3}, no_words, no_words, [3, 14, 15, 16]),
            ("crossed_waits", none, {1}, {"ClearRect"}, no_words, [7]),
            ("crossed_waits", none, none, no_words, {"waits"}, [3, 4, 5, 8, 9]),
            ("crossed_waits", none, none, {"WaitToken"}, no_words, [4, 5]),
            ("crossed_waits", none, none, no_words, {"failed", "lost"}, []),
            ("crossed_waits", {1, 3}, none, {"CreateImage"}, no_words, [6, 14]),
            ("lost_stream", none, none, no_words, {"lost"}, [5]),
            ("lost_stream", none, none, no_words, {"lost", "waits"}, [2, 5])):
        choice = log.Choice(
            frozenset(streams), frozenset(orders), frozenset(commands), frozenset(marks)
        )
        got = [int(line.split()[0]) for line in log.lines(of[name], choice, False)]
        tally.tell(
            f"log of {name}, {choice}", None if got == wanted else f"wanted {wanted}, got {got}"
        )


def check_calls(top: Path, tally: Tally) -> None:
    """The tool as it is called: what it reads, selects and refuses.

    With the script, dropped fences have a line too.
    """
    whole = called(top, ["log"], (top / "examples/names.stdout").read_text())
    tally.tell(
        "log, as it is called",
        None
        if whole.stdout.splitlines() == lines_of((top / "examples/names.stdout").read_text())
        else str(whole),
    )
    ran = called(
        top, ["log", "crossed_waits.stdout", "--order", "1", "--command", "clearrect", "--json"]
    )
    tally.tell("log, with options",
               None if [json.loads(line)["event"] for line in ran.stdout.splitlines()] == [7]
               else str(ran))
    told = called(top, ["log", "names.stdout", "--script", "names.script"]).stdout.splitlines()[1]
    wanted = (
        "the fence on stream (3, 1) to come to release 1 is dropped: no stream is called (3, 1)"
    )
    tally.tell(
        "log of a dropped fence", None if told.endswith(wanted) and "up to PUT 6" in told else told
    )
    check_names(top, tally)
    check_unmatched(top, tally)
    for words, text, status, said in (
            (["log", "--command", "ClearRekt"], "", 2,
             "bad command line: argument --command: no command 'ClearRekt'; did you mean "
             "'ClearRect'?"),
            (["log", "--stream", "x"], "", 2,
             "bad command line: argument --stream: 'x' is no number, and no name NS:ID"),
            (["log"], "x\n", 5, "refused: line 1: "),
            (["log"], "", 5, "refused: the output is empty"),
            (["log", "names.script"], "", 5, "refused: names.script: line 2: this is a script, "),
            (["log", "no\nfile"], "", 3, "read fault: no\\x0afile: no such file"),
            (["log"], "yes events 0\n", 5, "refused: line 1: "),
            (["log", "names.stdout", "--script", "compositor.script"], "", 5,
             "refused: the script is of another run"),
            (["log", "names.stdout", "--script", "names.stdout"], "", 5,
             "refused: names.stdout: it is no lawful script"),
            (["log", "nowhere"], "", 3, "read fault: nowhere: no such file")):
        ran = called(top, words, text)
        is_told = (
            ran.returncode == status
            and ran.stderr.startswith(said)
            and ran.stderr.count("\n") == 1
            and not ran.stdout
        )
        tally.tell(f"{' '.join(words)}, which is refused", None if is_told else str(ran))


def check_names(top: Path, tally: Tally) -> None:
    """Streams of version 2 have their names, in words, in JSON, and as a choice."""
    told = called(top, ["log", "names.stdout"]).stdout.splitlines()
    wanted = ("1  stream 1 (2, 77)  order 1  ", "; waits for stream 1 (2, 77) to come to release 5",
              "; ends the wait of number 2 of stream 2 (2, 99) by a release")
    is_so = all(words in line for words, line in zip(wanted, told))
    tally.tell("log, the names of streams", None if is_so else str(told))
    ran = called(top, ["log", "names.stdout", "--stream", "2:99", "--json"])
    records = [json.loads(line) for line in ran.stdout.splitlines()]
    names = [(record["event"], record["name"], [wait["name"] for wait in record["waits"]])
             for record in records]
    wanted_names = [(2, "2:99", ["2:77"]), (5, "2:99", ["2:77"]), (6, "2:99", [])]
    fault = unlike((wanted_names, ""), (names, ran.stderr))
    tally.tell("log, a stream by its name", fault)
    ran = called(top, ["log", "compositor.stdout", "--stream", "0:3", "--json"])
    streams = {json.loads(line)["stream"] for line in ran.stdout.splitlines()}
    tally.tell("log, a stream of version 1 by its name", unlike({3}, streams))


def unlike(wanted: object, got: object) -> str | None:
    """The fault of a thing that is not as it should be, or None."""
    return None if wanted == got else f"wanted {wanted}, got {got}"


def check_unmatched(top: Path, tally: Tally) -> None:
    """An option that matches no event is named on standard error, and the status is 0."""
    none: list[str] = []
    for words, said in (
            ("names.stdout --stream 9:9", ["--stream 9:9"]),
            ("compositor.stdout --stream 4 --order 1", ["--stream 4"]),
            ("compositor.stdout --order 7 --lost --json", ["--order 7", "--lost"]),
            ("compositor.stdout --command deletebuffer", ["--command DeleteBuffer"]),
            ("compositor.stdout --failed --waits", ["--failed"]),
            ("compositor.stdout --stream 1 --command copyrect", ["all options together"]),
            ("compositor.stdout --stream 1 --order 1", none)):
        ran = called(top, ["log", *words.split()])
        notes = "".join(f"note: no event matches {option}\n" for option in said)
        tally.tell(f"log {words}", unlike((0, notes), (ran.returncode, ran.stderr)))


def check_progress(top: Path, program: Path, tally: Tally) -> None:
    """A long log shows its progress on a terminal, and then clears it."""
    script = subprocess.run([program, *LONG], capture_output=True, check=True).stdout
    with tempfile.TemporaryDirectory() as folder:
        path = Path(folder) / "output"
        path.write_bytes(
            subprocess.run([program, "run"], input=script, capture_output=True, check=True).stdout
        )
        master, slave = pty.openpty()
        ran = subprocess.run([top / "view/run", "log", "--lost", path], stdout=subprocess.PIPE,
                             stderr=slave, check=False)
        os.close(slave)
        told = os.read(master, 1 << 16).decode()
        os.close(master)
        is_quiet = ran.returncode == 0 and not ran.stdout
        end = "\r\033[Knote: no event matches --lost\r\n"
        is_so = is_quiet and "\r5,000 of 22,416 events" in told and told.endswith(end)
        tally.tell("log, far on a terminal", None if is_so else repr(told))
