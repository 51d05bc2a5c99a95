"""What `stats` counts, against the second count of tests/model_stats.py.

For each case of `run`, for runs with workers, and for random scripts all numbers are the same. The
table has the numbers of the JSON, and without the script the same ones but for unknown fences.
"""

import json
import re
import subprocess
from collections.abc import Iterator
from pathlib import Path
from typing import Any

from tests import hostile, model_stats
from tests.model_script import Reader, Refused
from tools.checks import answers, logs
from tools.checks.tally import Tally
from view import stats
from view.history import History
from view.script import Script
from zorvleid.output import read_output

LONGEST = 20_000
RANDOM = range(40)
WITH_WORKERS = ("compositor", "crossed_waits", "names", "hostile_client")
KNOWN = ("events", "flushes", "commands", "failed", "texels", "bytes", "words", "lengths")
ENDED = ("release", "guard", "closed")
ROW = re.compile(r" *(\S.*?)  +([-\d,]+(?: +[-\d,]+)*)")


def check(top: Path, program: Path, tally: Tally) -> None:
    """Reports each run of which `stats` says something else."""
    schema = json.loads((top / "docs/stats.schema.json").read_text(encoding="utf-8"))
    for name, script, output in runs(top, program):
        tally.tell(f"stats of {name}", fault_of(script, output, schema))
    script = (top / "examples/lost_stream.script").read_bytes()
    output = (top / "examples/lost_stream.stdout").read_bytes()
    wanted = model_stats.stats(Reader(script), output)
    for words in (["lost_stream.script"], ["lost_stream.stdout", "--script", "lost_stream.script"]):
        ran = answers.called(top, program, ["stats", "--json", *words])
        is_so = ran.returncode == 0 and not ran.stderr and json.loads(ran.stdout) == wanted
        tally.tell(f"stats, as it is called with {words}", None if is_so else str(ran))


def runs(top: Path, program: Path) -> Iterator[tuple[str, bytes, bytes]]:
    """The name, the script and the output of each run that is counted."""
    for folder in ("examples", "tests/cases"):
        for path in sorted((top / folder).rglob("*.script")):
            output = path.with_suffix(".stdout")
            is_run = output.exists() and not path.with_suffix(".words").exists()
            if is_run and path.stat().st_size <= LONGEST:
                yield str(path.relative_to(top)), path.read_bytes(), output.read_bytes()

    def output_of(script: bytes, *words: str) -> bytes:
        return subprocess.run(
            [program, "run", *words], input=script, capture_output=True, check=False).stdout

    for name in WITH_WORKERS:
        script = (top / f"examples/{name}.script").read_bytes()
        yield f"{name} with workers", script, output_of(script, "--workers", "4")
    for seed in RANDOM:
        script = hostile.script(seed).encode()
        yield f"the random script {seed}", script, output_of(script)


def fault_of(script: bytes, output: bytes, schema: dict[str, Any]) -> str | None:
    """The fault of the numbers of an output, or None."""
    try:
        wanted = model_stats.stats(Reader(script), output)
    except Refused:
        return None
    lines = script.decode("latin-1").split("\n")
    counted, history = counted_of(output, Script(lines))
    told = json.loads(json.dumps(stats.record(counted, True)))
    if told != wanted:
        return f"it has {told}, and {wanted} is wanted"
    if (fault := logs.fault_of_schema(told, schema, schema)) is not None:
        return f"its JSON {fault}"
    return fault_of_table(list(stats.lines(counted, True)), told) or fault_without(output, told)


def counted_of(output: bytes, script: Script | None) -> tuple[stats.Stats, History]:
    """The numbers of an output, and its history."""
    counted = stats.Stats()
    history = History(read_output(output), script, counted)
    counted.end(history)
    return counted, history


def rows_of(told: dict[str, Any]) -> dict[str, int | None]:
    """The rows of a column that are due, by their words, from the JSON of it."""
    kinds, stored, waits, lengths = (told[name] for name in ("events", "bytes", "waits", "lengths"))
    longest = lengths["longest"]
    return {
        "events": sum(kinds.values()), "flushes, by an order": told["flushes"],
        "steps": kinds["step"], "finishes": kinds["finish"], "losses": kinds["lost"],
        "closes": kinds["close"], "commands": kinds["step"], **told["commands"],
        "failed commands": sum(told["failed"].values()), **told["failed"],
        "texels written": told["texels"], "bytes written": sum(stored.values()),
        "into buckets": stored["buckets"], "into buffers": stored["buffers"],
        "into result memories": stored["results"], "words fetched": told["words"],
        "waits made": waits["made"], "dropped at once": waits["dropped"], "kept": waits["kept"],
        "ended by a release": waits["release"], "ended by a guard": waits["guard"],
        "ended by a close": waits["closed"], "gone with their stream": waits["gone"],
        "pending": waits["pending"], "median length, in events": lengths["median"],
        "longest": longest["events"] if longest else None,
    }


def fault_of_table(lines: list[str], told: dict[str, Any]) -> str | None:
    """The table has each number of the JSON that is not 0 everywhere, and no other one."""
    columns = [rows_of(told["all"]), *map(rows_of, told["streams"])]
    rows = {found[1]: found[2].split() for line in lines[1:] if (found := ROW.fullmatch(line))}
    for name in columns[0]:
        numbers = [column.get(name, 0) for column in columns]
        wanted = ["-" if number is None else f"{number:,}" for number in numbers]
        if rows.pop(name, wanted if not any(numbers) else None) != wanted:
            return f"the row of {name!r} has not {wanted}"
    return f"the table has {rows} too" if rows else None


def fault_without(output: bytes, told: dict[str, Any]) -> str | None:
    """Without the script all but unknown fences is the same."""
    counted, _ = counted_of(output, None)
    other = json.loads(json.dumps(stats.record(counted, False)))
    for got, wanted in zip([other["all"], *other["streams"]], [told["all"], *told["streams"]]):
        for name in KNOWN:
            if got[name] != wanted[name]:
                return f"without the script it has {got[name]}, and {wanted[name]} is wanted"
        if any(got["waits"][how] != wanted["waits"][how] for how in ENDED):
            return f"without the script it has {got['waits']}, and {wanted['waits']} is wanted"
    return None
