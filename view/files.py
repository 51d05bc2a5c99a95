"""Files that are whole or not there, whatever their names lead to.

`write_all` looks at all names first. It writes a regular file, also one at the end of links, beside
its place; the file takes its place once all files are written. It writes anything else, as a device
or a pipe, directly. `-` is standard output.
"""

import errno
import os
import stat
from collections.abc import Iterable, Iterator
from contextlib import contextmanager, suppress
from dataclasses import dataclass
from pathlib import Path
from typing import BinaryIO

from zorvleid.console import STANDARD, WriteFault, refuse_overwriting

LINKS_AT_MOST = 40


class WrongName(Exception):
    """A name that is none of a file, or one of a file that is named already."""


@dataclass(frozen=True)
class Target:
    """Where the bytes of a named file go: into an open descriptor, or to a path that is no link."""

    name: str
    place: int | Path

    @property
    def status(self) -> os.stat_result | None:
        """The thing that the name leads to."""
        with suppress(OSError):
            return os.stat(self.place)
        return None

    @property
    def replaced(self) -> Path | None:
        """The place that a new file takes: that of a regular file, or of none."""
        status = self.status
        is_free = status is None or stat.S_ISREG(status.st_mode)
        return self.place if isinstance(self.place, Path) and is_free else None

    @property
    def identity(self) -> object:
        """The thing that two names of one file have in common."""
        status = self.status
        return (status.st_dev, status.st_ino) if status else self.place


def descriptor_of(path: Path) -> int | None:
    """The open descriptor of this process that a path is a name of."""
    own = (Path("/proc/self/fd"), Path(f"/proc/{os.getpid()}/fd"), Path("/dev/fd"))
    return int(path.name) if path.parent in own and path.name.isdigit() else None


def target_of(name: str | Path) -> Target:
    """The thing at the end of a name's links; the last link may be to an open descriptor."""
    text = str(name)
    if not text:
        raise WrongName("the name of a file is empty")
    if text == STANDARD:
        return Target(text, 1)
    try:
        place = place_of(Path(text))
        is_folder = isinstance(place, Path) and (text.endswith("/") or place.is_dir())
    except OSError as error:  # as in a folder that this user may not look into
        raise WriteFault(text, error) from None
    if is_folder:
        raise WrongName(f"{text} is a folder, and no file")
    return Target(text, place)


def place_of(path: Path) -> int | Path:
    """The place at the end of a path's links."""
    for _ in range(LINKS_AT_MOST):
        if (descriptor := descriptor_of(path)) is not None:
            return descriptor
        if not path.is_symlink():
            return Path(os.path.realpath(path))
        path = path.parent / os.readlink(path)
    raise OSError(errno.ELOOP, os.strerror(errno.ELOOP))


def targets_of(names: Iterable[str | Path], inputs: Iterable[str] = ()) -> list[Target]:
    """The things that names lead to, each to a file of its own, which is none of the inputs."""
    names = list(names)
    refuse_overwriting(inputs, map(str, names))
    targets: dict[object, Target] = {}
    for target in map(target_of, names):
        if (other := targets.get(target.identity)) is not None:
            raise WrongName(f"{target.name} is named twice" if other.name == target.name
                            else f"{other.name} and {target.name} are one file")
        targets[target.identity] = target
    return list(targets.values())


Data = bytes | Iterable[bytes]  # of a file: all of it, or its parts in order


def write_data(file: BinaryIO, data: Data) -> None:
    """Writes bytes, or parts of them as they come."""
    file.writelines([data] if isinstance(data, bytes) else data)


def check_rights(target: Target) -> None:
    """Sees that a file that is there may be written."""
    if target.status and not os.access(target.place, os.W_OK):
        raise OSError(errno.EACCES, os.strerror(errno.EACCES))


def write_beside(target: Target, data: Data, file: BinaryIO) -> None:
    """Writes the bytes of a target to a new file, with the rights of the old one."""
    write_data(file, data)
    if status := target.status:
        os.fchmod(file.fileno(), stat.S_IMODE(status.st_mode))


def write_in_place(place: int | Path, data: Data) -> None:
    """Writes bytes into the thing at this place."""
    descriptor = os.dup(place) if isinstance(place, int) else os.open(place, os.O_WRONLY)
    with open(descriptor, "wb") as file:
        write_data(file, data)


def write_all(files: Iterable[tuple[str | Path, Data]], inputs: Iterable[str] = ()) -> None:
    """Writes files, given by their names, or none of them. None of them is an input."""
    files = list(files)
    targets = targets_of((name for name, _ in files), inputs)
    parts: dict[Path, tuple[Target, Path]] = {}
    at = None
    try:
        for at, (_, data) in zip(targets, files):
            if (place := at.replaced) is not None:
                check_rights(at)
                part = place.with_name(f".{os.getpid()}.{len(parts)}.part")
                with part.open("xb") as file:
                    parts[part] = at, place
                    write_beside(at, data, file)
        for at, (_, data) in zip(targets, files):
            if at.replaced is None:
                write_in_place(at.place, data)
        for part, (at, place) in parts.items():
            os.replace(part, place)
    except OSError as error:
        name = at.name if at else ""
        raise WriteFault("standard output" if name == STANDARD else name, error) from None
    finally:
        for part in parts:
            with suppress(OSError):  # a fault here would hide the one that is told
                part.unlink()


@contextmanager
def made_folder(path: str | Path) -> Iterator[None]:
    """Makes a folder and those above it. Those that are new go again where nothing is written."""
    new = [folder for folder in (Path(path), *Path(path).parents)
           if not os.path.exists(folder)]  # with no fault for a forbidden one
    make_folder(path)
    try:
        yield
    except BaseException:
        with suppress(OSError):
            for folder in new:
                folder.rmdir()
        raise


def make_folder(path: str | Path) -> None:
    """Makes a folder and those above it."""
    try:
        Path(path).mkdir(parents=True, exist_ok=True)
    except FileExistsError:
        raise WriteFault(path, NotADirectoryError(errno.ENOTDIR, "it is no folder")) from None
    except OSError as error:
        raise WriteFault(path, error) from None


def part_of_page(name: str) -> str:
    """A part of a page, as it lies beside this file."""
    return (Path(__file__).parent / "pages" / name).read_text(encoding="utf-8")
