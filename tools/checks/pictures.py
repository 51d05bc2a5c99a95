"""The pictures of every case: each PNG file has exactly the texels that are printed.

A Python that has Pillow runs this as a module. It draws the outputs whose files standard input
names, and writes a line for each: its place in the list, a tab, and its fault.
"""

import functools
import os
import subprocess
import sys
import tempfile
from concurrent.futures import ThreadPoolExecutor
from pathlib import Path

from tools.checks import outputs
from tools.checks.tally import Tally
from view import pictures
from zorvleid import output

Named = tuple[Path, int]  # a case, and the number of its output
Image = tuple[int, int, bytes]  # the width, the height and the texels
WORKERS = 4
SCALES = (1, 3)
REPEATED_AT_MOST = 4096  # larger images are drawn once


def check(top: Path, program: Path, tally: Tally) -> None:
    """Reports each output whose pictures are not its own."""
    check_wrapper(top, tally)
    python = outputs.python_with("PIL.Image")
    if python is None:
        tally.skip("pictures of every case",
                   "Pillow is missing (apt install python3-pil), which reads them back")
        return
    draw = functools.partial(draw_part, top, python)
    with tempfile.TemporaryDirectory() as folder, ThreadPoolExecutor(WORKERS) as pool:
        names: list[Named] = []
        for number, (name, text) in enumerate(outputs.outputs_of_cases(top)):
            if "\nimage " in text or text.startswith("image "):
                (Path(folder) / str(number)).write_text(text, encoding="ascii")
                names.append((name, number))
        parts = [names[start::WORKERS] for start in range(WORKERS)]
        for part, told in zip(parts, pool.map(lambda part: draw(folder, part), parts)):
            for name, number in part:
                tally.tell(f"pictures of {name}", told.get(str(number), "nothing was drawn"))


def draw_part(top: Path, python: str, folder: str, part: list[Named]) -> dict[str, str | None]:
    """The faults of the pictures of some outputs, by a Python that has Pillow."""
    listed = "".join(f"{folder}/{number}\n" for _, number in part)
    ran = subprocess.run([python, "-P", "-B", "-m", "tools.checks.pictures"], input=listed,
                         capture_output=True,
                         text=True, check=False,
                         env={**os.environ, "PYTHONPATH": f"{top}:{top}/python"})
    told: dict[str, str | None] = {}
    for line in ran.stdout.splitlines():
        number, _, fault = line.partition("\t")
        told[number] = fault or None
    return told


def check_wrapper(top: Path, tally: Tally) -> None:
    """The command as it is called."""
    output = (top / "examples/compositor.stdout").read_bytes()
    tool = [str(top / "zorvleid"), "pictures"]
    with tempfile.TemporaryDirectory() as folder:
        ran = subprocess.run([*tool, "--into", "new/pictures"], input=output, capture_output=True,
                             cwd=folder, check=False)
        written = sorted(path.name for path in Path(folder, "new/pictures").glob("*"))
        wanted = ["image-1.png", "image-2.png", "image-3.png", "index.html"]
        fault = (
            None
            if (ran.returncode, ran.stderr, written) == (0, b"", wanted)
            else f"{ran} left {written}"
        )
        tally.tell("pictures of the compositor", fault)
        ran = subprocess.run([*tool, "--into", "none"], input=output + b"more\n",
                             capture_output=True, cwd=folder, check=False)
        last = output.count(b"\n") + 1
        is_told = (
            ran.returncode == 5
            and ran.stderr.startswith(b"refused: line %d: " % last)
            and ran.stderr.count(b"\n") == 1
        )
        is_told = is_told and not Path(folder, "none").exists()
        tally.tell("pictures of an output with a line too many", None if is_told else str(ran))
        ran = subprocess.run([*tool, "--into", "/dev/null/none"], input=output, capture_output=True,
                             cwd=folder, check=False)
        tally.tell("pictures into no folder",
                   None if ran.returncode == 4 and ran.stderr.startswith(b"write fault")
                   else str(ran))


# --- The part that needs Pillow ---


def repeated(image: Image, scale: int) -> Image:
    """The texels of an image with each of them repeated in both directions."""
    width, height, texels = image
    rows = [texels[4 * width * y:4 * width * (y + 1)] for y in range(height)]
    wide = [b"".join(row[at:at + 4] * scale for at in range(0, len(row), 4)) if scale > 1 else row
            for row in rows]
    return width * scale, height * scale, b"".join(row * scale for row in wide)


def fault_of(text: str, folder: str) -> str | None:
    """The fault of the pictures of an output, or None."""
    from PIL import Image as Drawn

    wanted = outputs.images_of(text)
    read = output.read_output(text.encode())
    for scale in SCALES:
        if (
            scale > 1
            and sum(width * height for width, height, _ in wanted.values()) > REPEATED_AT_MOST
        ):
            continue
        pictures.write(read, Path(folder), scale)
        for number, image in wanted.items():
            with Drawn.open(Path(folder) / f"image-{number}.png") as drawn:
                got = (*drawn.size, drawn.tobytes())
                if drawn.mode != "RGBA" or got != repeated(image, scale):
                    return f"image {number} at scale {scale} has other texels than are printed"
        sheet = (Path(folder) / "index.html").read_text()
        if sheet.count("<figure>") != len(wanted) or not all(
            f'src="image-{number}.png"' in sheet for number in wanted
        ):
            return "the sheet has other images than are printed"
    return None


def main() -> None:
    """Reports the fault of the pictures of each output that standard input names."""
    for line in sys.stdin.read().splitlines():
        with tempfile.TemporaryDirectory() as folder:
            try:
                fault = fault_of(Path(line).read_text(encoding="ascii"), folder)
            except Exception as error:  # a fault of one output is reported, and the next is drawn
                fault = repr(error)
        print(f"{Path(line).name}\t{fault or ''}", flush=True)


if __name__ == "__main__":
    main()
