"""What `view` makes: the page of a script, of a text of commands, and of an output.

The page of a script or of its commands is the one that is due for the output of tests/model.py. It
is opened in the browser if there is one, and named.
"""

import tempfile
from collections.abc import Iterator
from pathlib import Path

from bench import greatest
from tests import model
from tools.checks import answers
from tools.checks.tally import Tally
from view import page
from view.script import Script
from zorvleid.output import read_output

ENDS = (".script", ".commands", ".stdout")
HEAD = "<!DOCTYPE html>"


def check(top: Path, program: Path, tally: Tally, seconds: int = answers.USUAL_SECONDS) -> None:
    """Reports each page that is another one, or that is not shown."""
    with tempfile.TemporaryDirectory() as name:
        folder = Path(name)
        for path in sorted((top / "examples").glob("*.script")):
            for end, wanted in pages_of(path):
                tally.tell(f"view of {path.stem}{end}",
                           fault_of(top, program, path.with_suffix(end), folder / "page", wanted))
        for is_there in (True, False):
            what = "a browser" if is_there else "no browser"
            tally.tell(f"view with {what}", fault_of_browser(top, program, folder, is_there))
        tally.tell("view of a cut output", fault_of_cut(top, program, folder / "cut"))
        tally.tell("view into a pipe", fault_of_pipe(top, program))
        tally.tell("view of a large script", fault_of_large(top, program, folder, seconds))


def check_large(top: Path, program: Path, tally: Tally) -> None:
    check(top, program, tally, answers.LARGE_SECONDS)


def pages_of(path: Path) -> Iterator[tuple[str, str]]:
    """What may be named of an example, and the page that is due for it."""
    script = path.read_bytes()
    output = read_output(model.answer(["run"], script)[1])
    with_script = page.text(output, Script(script.decode("ascii").split("\n")))
    yield from zip(ENDS, (with_script, with_script, page.text(output)))


def fault_of(top: Path, program: Path, path: Path, place: Path, wanted: str) -> str | None:
    """The fault of the page of a file, or None."""
    ran = answers.called(top, program, ["view", "--page", str(place), str(path)])
    if (ran.returncode, ran.stdout.decode(), ran.stderr) != (0, f"{place}\n", b""):
        return str(ran)
    return None if place.read_text(encoding="utf-8") == wanted else "it is another page"


def fault_of_browser(top: Path, program: Path, folder: Path, is_there: bool) -> str | None:
    """A browser gets the address of the page, which has a new file; without one nothing starts."""
    told, browser = folder / "told", folder / "browser"
    told.unlink(missing_ok=True)
    browser.write_text(f'#!/bin/sh\necho "$1" > {told}\n')
    browser.chmod(0o755)
    env = {"TMPDIR": str(folder), **({"BROWSER": f"{browser} %s"} if is_there else {})}
    script = (top / "examples/two_texels.script").read_bytes()
    for word, data, stem in (("two_texels.script", b"", "two_texels"), ("-", script, "page")):
        ran = answers.called(top, program, ["view", word], data, **env)
        place = Path(ran.stdout.decode().rstrip("\n"))
        if ran.returncode or place.name != f"{stem}.html" or not place.exists():
            return str(ran)
        opened = told.read_text().rstrip("\n") if told.exists() else None
        if opened != (place.as_uri() if is_there else None):
            return f"{opened} is opened"
    return None


def fault_of_cut(top: Path, program: Path, place: Path) -> str | None:
    """An output whose end is missing has a page, and a note."""
    lines = (top / "examples/names.stdout").read_bytes().splitlines(True)
    ran = answers.called(top, program, ["view", "--page", str(place), "-"], b"".join(lines[:6]))
    is_so = (ran.returncode, ran.stderr) == (0, b"note: the output ends here\n")
    return None if is_so and place.read_text(encoding="utf-8").startswith(HEAD) else str(ran)


def fault_of_pipe(top: Path, program: Path) -> str | None:
    """Standard output has the page alone."""
    ran = answers.called(top, program, ["view", "--page", "-", "two_texels.stdout"])
    is_whole = ran.stdout.startswith(HEAD.encode()) and ran.stdout.endswith(b"</html>\n")
    return None if ran.returncode == 0 and is_whole else str(ran)


def fault_of_large(top: Path, program: Path, folder: Path, seconds: int) -> str | None:
    """A run of 140,000 events is shown within seconds of a processor."""
    script = folder / "large.script"
    script.write_text(dict(greatest.commands(1))["ClearRect of one texel"])
    words = ["view", "--page", str(folder / "page"), str(script)]
    took = (answers.seconds_of(top, program, words) for _ in range(answers.TRIES))
    return None if any(each < seconds for each in took) else f"it takes above {seconds} seconds"
