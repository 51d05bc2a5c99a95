"""The timeline of an output, as a trace and as a page."""

from pathlib import Path

from zorvleid.output import Output

from . import files, page, trace
from .history import History
from .script import Script


def write(
    output: Output, trace_path: str | None, page_path: str | None, script: Script | None = None
) -> bool:
    """Writes the files that are asked for, and answers whether the end of the output is missing."""
    recorder = page.Recorder()
    history = History(output, script, recorder if page_path is not None else None)
    made: list[tuple[str | Path, files.Data]] = []
    if trace_path is not None:
        made.append((trace_path, trace.parts(history)))
    if page_path is not None:
        made.append((page_path, page.text_of(history, recorder, script).encode()))
    files.write_all(made)
    return history.output.is_cut
