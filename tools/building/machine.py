"""The processors and the memory of this machine for a build, within the limits of a container."""

import os
import re
from pathlib import Path

GROUP = Path("/sys/fs/cgroup")


def number_in(path: Path, pattern: str) -> int | None:
    """The first number in a file that a pattern leads to, or None where there is none."""
    try:
        found = re.search(pattern, path.read_text(encoding="utf-8"), re.MULTILINE)
    except OSError:
        return None
    return int(found[1]) if found else None


def processors() -> int:
    found = len(os.sched_getaffinity(0))
    quota, period = (number_in(GROUP / "cpu.max", it) for it in (r"^(\d+)", r"^\d+ (\d+)"))
    return max(1, min(found, quota // period)) if quota and period else found


def free_memory() -> int:
    """Bytes."""
    found = 1024 * (number_in(Path("/proc/meminfo"), r"^MemAvailable:\s+(\d+)") or 0)
    limit, held = number_in(GROUP / "memory.max", r"^(\d+)"), number_in(
        GROUP / "memory.stat", r"^anon (\d+)"
    )
    return found if limit is None or held is None else min(found, max(0, limit - held))


def free_disk(place: Path) -> int:
    """Bytes that can be written there."""
    found = os.statvfs(place)
    return found.f_bavail * found.f_frsize
