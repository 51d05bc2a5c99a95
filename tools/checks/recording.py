"""The recorders of include/: they compile, and what they write is taken.

Each program is compiled as C99 and as C++, with an address sanitizer if the compiler has one.
Without a compiler all of it is skipped.
"""

import subprocess
import tempfile
from collections.abc import Iterator, Sequence
from pathlib import Path
from typing import Any

from tools.checks import refusing
from tools.checks.tally import Tally
from zorvleid import Script, disassemble, read_script

CLIENT, SERVICE, CALLS = (
    "examples/record/client.c",
    "examples/record/service.c",
    "tests/record_calls.c",
)
WARNINGS = ("-Wall", "-Wextra", "-Wpedantic", "-Werror", "-O1")
LANGUAGES = {"C99": ("-std=c99",), "C++": ("-x", "c++")}
SANITIZER = "-fsanitize=address"
SECONDS = 300
INCLUDED = ("errno", "stddef", "stdint", "stdio", "string")
HEADERS = {  # what a compiler brings along, for one that has come without
    "stddef.h": "typedef __SIZE_TYPE__ size_t;\ntypedef __PTRDIFF_TYPE__ ptrdiff_t;\n"
    "#undef NULL\n#define NULL 0\n",
    "stdarg.h": "typedef __builtin_va_list __gnuc_va_list;\ntypedef __builtin_va_list va_list;\n",
}
BYTES = bytes([1, 2, 3, 4, 5, 255, *[0] * 63, 9])
COPY = b"image 2 8 4\n" + (b" ".join([b"d9534fff"] * 8) + b"\n") * 4
CHECKED = b"ok streams 3 actions 4109 flushes 3\n"
BROKEN = "event 5 of the journal, line 16 of the input, breaks rule 5:"
JOURNAL = b"""gpu-journal 2
name 1 255 18446744073709551615
name 2 0 0
name 3 0 1
order 1 1 4102
step 1 0:20000003 4294967295:ffffffff
step 1
finish 1 1
lost 1 memory
lost 2 2
lost 3 6 0:20000003
close 4294967295
"""


def check(top: Path, program: Path, tally: Tally) -> None:
    """Reports each program that does not compile, or whose text is not accepted."""
    with tempfile.TemporaryDirectory() as folder:
        compiler = ready_compiler(Path(folder))
        if compiler is None:
            tally.skip(
                "the recorders",
                "no C compiler is there that has the headers of C (apt install gcc libc6-dev)",
            )
            return
        for name, flags in LANGUAGES.items():
            made = Path(folder) / "made"
            sanitizer = sanitizer_of(compiler, flags, Path(folder), tally, name)
            for source, run in (
                (CLIENT, check_client),
                (SERVICE, check_service),
                (CALLS, check_recorded),
            ):
                fault = compiled(compiler, (*flags, *WARNINGS, *sanitizer), top / source, made)
                tally.tell(f"{source} as {name}", fault)
                if fault is None:
                    for what, found in run(top, program, made):
                        tally.tell(f"{source} as {name}, {what}", found)


def ready_compiler(folder: Path) -> list[str] | None:
    """The first compiler that finds the headers of C; that of the toolchain gets HEADERS."""
    source, made = folder / "probe.c", folder / "probe"
    source.write_text(
        "".join(f"#include <{name}.h>\n" for name in INCLUDED) + "int main(void) { return 0; }\n"
    )
    for name, text in HEADERS.items():
        (folder / name).write_text(text)
    for words in refusing.compilers():
        for compiler in (words, [*words, "-isystem", str(folder)]):
            if compiled(compiler, LANGUAGES["C99"], source, made) is None:
                return compiler
    return None


def compiled(compiler: Sequence[Any], flags: Sequence[str], source: Path, made: Path) -> str | None:
    """A compiler's faults of a source, or None."""
    ran = subprocess.run(
        [*compiler, *flags, "-o", made, source], capture_output=True, text=True, check=False
    )
    return (
        None
        if ran.returncode == 0 and not ran.stderr
        else f"the compiler says: {ran.stderr.strip()[:500]}"
    )


def sanitizer_of(
    compiler: Sequence[Any], flags: Sequence[str], folder: Path, tally: Tally, name: str
) -> tuple[str, ...]:
    """The flag of the address sanitizer, where a program that has it runs."""
    source, made = folder / "empty.c", folder / "empty"
    source.write_text("int main(void) { return 0; }\n")
    if (
        compiled(compiler, (*flags, SANITIZER), source, made) is None
        and run([made]).returncode == 0
    ):
        return (SANITIZER,)
    tally.skip(f"the recorders as {name}, under an address sanitizer", "the compiler has none")
    return ()


def run(words: Sequence[Any], given: bytes = b"") -> "subprocess.CompletedProcess[bytes]":
    return subprocess.run(
        list(map(str, words)), input=given, capture_output=True, timeout=SECONDS, check=False
    )


def told(ran: "subprocess.CompletedProcess[bytes]", is_so: bool) -> str | None:
    return (
        None
        if is_so
        else f"it ends with {ran.returncode}: {ran.stdout[-300:]!r}, {ran.stderr[:500]!r}"
    )


def check_client(top: Path, program: Path, made: Path) -> Iterator[tuple[str, str | None]]:
    script = run([made])
    yield "its end", told(script, script.returncode == 0 and not script.stderr)
    ran = run([program, "run"], script.stdout)
    yield "its script", told(ran, ran.returncode == 0 and COPY in ran.stdout)


def check_service(top: Path, program: Path, made: Path) -> Iterator[tuple[str, str | None]]:
    right, wrong = run([made]), run([made, "--break"])
    yield "its end", told(right, right.returncode == 0 and not right.stderr)
    ran = run([program, "verify"], right.stdout)
    yield "its journal", told(ran, ran.returncode == 0 and ran.stdout.startswith(b"yes events 9\n"))
    ran = run([program, "verify"], wrong.stdout)
    yield "its broken journal", told(
        ran, (ran.returncode, ran.stderr) == (9, b"no: event 5 rule 5\n")
    )
    ran = run([top / "zorvleid", "explain", "--program", program], wrong.stdout)
    yield "its broken journal, explained", told(ran, ran.stdout.decode().startswith(BROKEN))
    ran = run([made, "--brake"])
    yield "its usage", told(ran, ran.returncode == 2 and ran.stderr.count(b"\n") == 1)


def commands_by_calls() -> Script:
    """The script of `record_calls commands`, made by the calls of the Python package."""
    script = Script()
    r = script.stream(ring=64)
    r.memory(1, 8)
    r.results(2, 8)
    r.results(3, 8)
    r.set_token(token=5)
    r.set_bucket_size(bucket=3, size=70)
    r.set_bucket_data(bucket=3, offset=8, size=4, memory=1, memory_offset=12)
    r.set_bucket_data_immediate(bucket=3, offset=0, data=BYTES)
    r.get_bucket_start(bucket=3, result_memory=2, result_offset=4, data_size=12, data_memory=3,
                       data_offset=16)
    r.get_bucket_data(bucket=3, offset=1, size=6, memory=2, memory_offset=8)
    r.flush()
    r.token(5)
    r.insert_fence(release=7)
    r.finish()
    r.insert_fence(release=0x100000008)
    r.wait_token(stream=2, release=0x200000003)
    r.create_image(image=1, width=4, height=3)
    r.create_image(image=2, width=5, height=6)
    r.clear_rect(image=1, x=1, y=2, w=3, h=1, texel=0x336699FF)
    r.flush()
    r.finish()
    r.copy_rect(source=1, x=0, y=1, target=2, x2=3, y2=4, w=2, h=1)
    r.upload_rect(image=1, x=1, y=0, w=2, h=3, format="RGB565", memory=1, memory_offset=6)
    r.upload_bucket(image=2, x=1, y=2, w=3, h=4, format="RGBA4444", bucket=3)
    r.create_buffer(buffer=4, size=80)
    r.flush()
    r.finish()
    r.buffer_data(buffer=4, offset=10, size=5, memory=1, memory_offset=3)
    r.upload_buffer(image=1, x=0, y=1, w=3, h=2, format="RGBA8", buffer=4, offset=7)
    r.delete_buffer(buffer=4)
    r.delete_image(image=2)
    r.noop(size=3)
    r.noop()
    r.wait_sync_token(namespace=9, id=0x300000004, release=0x500000006)
    r.flush()
    return script


def fault_of_commands(ran: "subprocess.CompletedProcess[bytes]") -> str | None:
    """The commands of a ring in C are those of a ring in Python."""
    wanted, got = disassemble(commands_by_calls()), disassemble(read_script(ran.stdout))
    if ran.returncode == 0 and wanted == got:
        return None
    return f"it ends with {ran.returncode}, and the script of it is\n{got}"


def check_recorded(top: Path, program: Path, made: Path) -> Iterator[tuple[str, str | None]]:
    script, journal = run([made, "script"]), run([made, "journal"])
    yield "each command by its call", fault_of_commands(run([made, "commands"]))
    ran = run([program, "check"], script.stdout)
    yield "each call of a script", told(ran, script.returncode == 0 and ran.stdout == CHECKED)
    yield "each call of a journal", told(
        journal, journal.returncode == 0 and journal.stdout == JOURNAL
    )
    for what in ("faults", "sticks"):
        ran = run([made, what])
        yield what, told(ran, (ran.returncode, ran.stdout, ran.stderr) == (0, b"0 wrong\n", b""))
