"""The outputs of all cases, which the checks of the tools read, with a second reading."""

import functools
import re
import subprocess
from collections.abc import Iterator
from pathlib import Path

from tests import large

EVENTS = ("order ", "step ", "finish ", "lost ", "close ")
SUM = ".stdout.sum"
PYTHONS = ("python3", "/usr/bin/python3")


@functools.cache
def large_output(name: str) -> str:
    return large.MAKERS[name]()[1]


def outputs_of_cases(top: Path, with_large: bool = True) -> Iterator[tuple[Path, str]]:
    """The name and the output of each case of `run` or `verify` that has one, as text.

    Large ones are made.
    """
    for folder in ("examples", "tests/cases"):
        for path in sorted((top / folder).rglob("*.stdout*")):
            name = path.relative_to(top)
            case = path.name.removesuffix(SUM).removesuffix(".stdout")
            if not is_output(path.with_name(case + ".words")):
                continue
            if path.name.endswith(SUM):
                if with_large:
                    yield name, large_output(case)
            elif path.suffix == ".stdout":
                yield name, path.read_text(encoding="ascii")


def is_output(words: Path) -> bool:
    """Whether the words of a case write an output: not `check`, `generate` and `trial`."""
    return not words.exists() or words.read_text().split()[0] in ("run", "verify")


def is_verdict(text: str) -> bool:
    return text.startswith("yes ")


def images_of(text: str) -> dict[int, tuple[int, int, bytes]]:
    """The images of an output, read a second time: width, height and texels by their numbers."""
    images: dict[int, tuple[int, int, bytes]] = {}
    lines = text.split("\n")
    for at, line in enumerate(lines):
        if found := re.fullmatch(r"image (\d+) (\d+) (\d+)", line):
            number, width, height = map(int, found.groups())
            rows = " ".join(lines[at + 1:at + 1 + height])
            images[number] = (width, height,
                              b"".join(int(texel, 16).to_bytes(4, "big")
                                       for texel in rows.split(" ")))
    return images


def python_with(module: str) -> str | None:
    """The first Python that has a module, or None."""
    for python in PYTHONS:
        try:
            if (
                subprocess.run(
                    [python, "-c", f"import {module}"], capture_output=True, check=False
                ).returncode
                == 0
            ):
                return python
        except OSError:
            continue
    return None
