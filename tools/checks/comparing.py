"""What `compare` says of two outputs of one script: the first difference, images, ends, a page."""

import re
import subprocess
import tempfile
from pathlib import Path

from tools.checks.tally import Tally
from view import compare, history
from zorvleid import output

# Two legal histories of one script, by hand: stream 2 copies before or after stream 1 has painted.
# They are made of parts.
HEAD_A = "order 1 1 14\norder 2 2 13\n"
HEAD_B = "order 2 1 13\norder 1 2 14\n"
PAINT = """step 1 0:20400004 1:00000007 2:00000002 3:00000001
step 1 4:20800007 5:00000007 6:00000000 7:00000000 8:00000002 9:00000001 10:336699ff
step 1 11:20000003 12:00000001 13:00000000
finish 1 {}
"""
COPY = """step 2 0:20400004 1:00000008 2:00000001 3:00000001
step 2 4:20a00009 5:00000007 6:00000001 7:00000000 8:00000008 9:00000000 10:00000000 \
11:00000001 12:00000001
finish 2 {}
"""
REST = """image 7 2 1
336699ff 336699ff
image 8 1 1
{}
stream 1 done entries 14 release 1 token 0 words 14 errors 0 0 0
stream 2 done entries 13 release 0 token 0 words 13 errors 0 {} 0
"""
A = (
    HEAD_A
    + PAINT.format(1)
    + COPY.format(2)
    + REST.format("336699ff", 0)
    + "mark 2 2 1 1 release 1008\n"
)
B = HEAD_B + COPY.format(1) + PAINT.format(2) + REST.format("00000000", 1)
LATER = (
    A.replace(
        "7:00000000 8:00000002 9:00000001 10:336699ff",
        "7:00000000 8:00000001 9:00000001 10:336699ff",
    )
    .replace("336699ff 336699ff", "336699ff 00000000")
    .replace("image 8 1 1\n336699ff", "image 8 1 1\n00000000")
)
SAID_B = (
    "journal: the first events differ",
    "    A  1  stream 1  order 1  order: drawn for the flush after 14 actions, up to PUT 14",
    "    B  1  stream 2  order 1  order: drawn for the flush after 13 actions, up to PUT 13",
    "stream 1: the same, 5 events",
    "stream 2: its first 2 events are the same, and then",
    "    A  8  stream 2  order 2  CopyRect: source 7, x 1, y 0, target 8, x2 0, y2 0, w 1, h 1; "
    "copies 1 texel to image 8",
    "    B  4  stream 2  order 1  CopyRect: source 7, x 1, y 0, target 8, x2 0, y2 0, w 1, h 1; "
    "failed, 0502: image 7, the source, is not there",
    "image 7: the same",
    "image 8: 1 texel of 1 differs, first at 0, 0: 336699ff in A, 00000000 in B",
    "stream 2: errors 0502 0 in A and 1 in B",
    "the wait of flush 1 of stream 2 for stream 1 at release 1: release in A, no wait in B",
)
SAID_LATER = (
    "journal: the first 3 events are the same, and then",
    "    A  4  stream 1  order 1  ClearRect: image 7, x 0, y 0, w 2, h 1, texel 336699ff; "
    "sets 2 texels of image 7",
    "    B  4  stream 1  order 1  ClearRect: image 7, x 0, y 0, w 1, h 1, texel 336699ff; "
    "sets 1 texel of image 7",
    "stream 1: its first 2 events are the same, and then",
    "    A  4  stream 1  order 1  ClearRect: image 7, x 0, y 0, w 2, h 1, texel 336699ff; "
    "sets 2 texels of image 7",
    "    B  4  stream 1  order 1  ClearRect: image 7, x 0, y 0, w 1, h 1, texel 336699ff; "
    "sets 1 texel of image 7",
    "stream 2: the same, 4 events",
    "image 7: 1 texel of 2 differs, first at 1, 0: 336699ff in A, 00000000 in B",
    "image 8: 1 texel of 1 differs, first at 0, 0: 336699ff in A, 00000000 in B",
)
NO_IMAGE = A.replace("image 8 1 1\n336699ff\n", "")
OTHER_SIZE = A.replace("image 8 1 1\n336699ff\n", "image 8 1 2\n336699ff\n336699ff\n")


def check(top: Path, program: Path, tally: Tally) -> None:
    """Reports each thing that `compare` says and should not."""
    for name, other, wanted in (("another interleaving", B, SAID_B),
                                ("another command", LATER, SAID_LATER),
                                ("the same", A, ("the two outputs say the same",))):
        got = tuple(lines_of(A, other))
        tally.tell(f"compare with {name}", None if got == wanted else first_difference(got, wanted))
    for name, other, line in (
        ("an image that is not there", NO_IMAGE, "image 8: only in A"),
        ("an image of another size", OTHER_SIZE, "image 8: 1 by 1 in A, 1 by 2 in B"),
    ):
        said = lines_of(A, other)
        tally.tell(f"compare with {name}", None if line in said else f"wanted {line!r}, got {said}")
    check_calls(top, tally)


def lines_of(first: str, second: str) -> list[str]:
    one, other = (history.History(output.read_output(text.encode())) for text in (first, second))
    return list(compare.lines(compare.Comparison(one, other)))


def first_difference(got: tuple[str, ...], wanted: tuple[str, ...]) -> str:
    return next(
        (f"wanted {one!r}, got {other!r}" for one, other in zip(wanted, got) if one != other),
        f"got {got}",
    )


def check_calls(top: Path, tally: Tally) -> None:
    """The tool as it is called, and its page: both images, the difference, the first difference."""
    with tempfile.TemporaryDirectory() as folder:
        for name, text in (("a", A), ("b", LATER),
                           ("other",
                            "order 1 1 0\nfinish 1 1\nstream 1 done entries 0 release 0 token 0 "
                                    "words 0 errors 0 0 0\n")):
            (Path(folder) / name).write_text(text)
        for words, text, status, begin in (
            (["a", "b", "--page", "page.html"], "", 1, ""),
            (["a", "-"], A, 0, ""),
            (["a", "other"], "", 5, "refused: the outputs are of two scripts"),
            (["a", "nowhere"], "", 3, "read fault: nowhere: "),
            (["-", "-"], "", 2, "bad command line: standard input cannot be both"),
        ):
            ran = subprocess.run([top / "view/run", "compare", *words], input=text,
                                 capture_output=True, text=True, check=False,
                                 cwd=folder)
            is_so = (
                ran.returncode == status
                and ran.stderr.startswith(begin)
                and ran.stderr.count("\n") == bool(begin)
            )
            tally.tell(f"compare {' '.join(words)}", None if is_so else str(ran))
        tally.tell("the page of compare", fault_of_page((Path(folder) / "page.html").read_text()))


def fault_of_page(page: str) -> str | None:
    """The fault of the page of the first output and the one with another command, or None."""
    names = re.findall(
        r'<img src="data:image/png;base64,[A-Za-z0-9+/=]+" width="\d+" height="\d+" alt="([^"]+)">',
        page,
    )
    wanted = [f"{what} {image}{side}" for image in (7, 8)
              for what, side
              in (("image", " in A"), ("image", " in B"), ("difference of image", ""))]
    if names != wanted:
        return f"wanted the images {wanted}, got {names}"
    if missing := [line.strip() for line in SAID_LATER if line.strip() not in page]:
        return f"it does not say {missing[0]!r}"
    return (
        None
        if page.count("<tr class=chosen>") >= 2 and "<h3>Stream 1, after 2 events" in page
        else "it does not show where they part"
    )
