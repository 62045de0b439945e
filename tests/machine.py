"""What this machine has free, under the limits of a control group too."""
import os
import pathlib
import re
from typing import Iterator, Optional

GROUP = pathlib.Path("/sys/fs/cgroup")


def number(path: pathlib.Path, pattern: str) -> Optional[int]:
    """The number that the file has by this pattern; nothing where it has none."""
    try:
        found = re.search(pattern, path.read_text())
    except OSError:
        return None
    return int(found[1]) if found else None


def processors() -> int:
    """The processors that this process may use."""
    quota, period = (number(GROUP / "cpu.max", pattern) for pattern in (r"^(\d+)", r" (\d+)"))
    return min(len(os.sched_getaffinity(0)), max(quota // period, 1) if quota and period else os.cpu_count() or 1)


def free_memory() -> int:
    """Free memory in bytes."""
    return min(filter(None, free_by_limit()), default=0)


def free_by_limit() -> Iterator[Optional[int]]:
    """What the machine has free, and what the control group has left."""
    available = number(pathlib.Path("/proc/meminfo"), r"MemAvailable:\s+(\d+)")
    yield available and 1024 * available
    limit, held = number(GROUP / "memory.max", r"^(\d+)"), number(GROUP / "memory.stat", r"anon (\d+)")
    yield max(limit - held, 1) if limit and held is not None else None
