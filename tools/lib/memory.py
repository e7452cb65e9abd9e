"""Memory: how much is free, and how much the program may take."""
import re

try:
    import resource
except ImportError:
    resource = None

UNITS = {"": 1, "K": 1 << 10, "M": 1 << 20, "G": 1 << 30, "T": 1 << 40}
# Less would not hold the program itself with its threads.
LEAST = 64 << 20
GROUP = "/sys/fs/cgroup"


def size(text):
    """The bytes of a size such as 512M or 8G; a ValueError says what is wrong."""
    found = re.fullmatch(r"([0-9]+)([KMGT]?)(i?B)?", text, re.IGNORECASE)
    if not found:
        raise ValueError(f"--memory {text}: a size is written as 512M or 8G")
    bytes_of_it = int(found[1]) * UNITS[found[2].upper()]
    if not LEAST <= bytes_of_it < 1 << 60:
        raise ValueError(f"--memory {text}: it is at least {told(LEAST)}")
    return bytes_of_it


def told(bytes_of_it):
    """A size as people read it."""
    for unit in ("TB", "GB", "MB"):
        power = UNITS[unit[0]]
        if bytes_of_it >= power:
            return f"{bytes_of_it / power:.3g} {unit}"
    return f"{bytes_of_it / 1024:.0f} kB"


def number_in(path):
    """The number that a file has, or none."""
    try:
        with open(path) as file:
            text = file.read().strip()
    except OSError:
        return None
    return int(text) if text.isdigit() else None


def line_of(path, name):
    """The bytes of a line such as `MemAvailable: 7 kB`, or none."""
    try:
        with open(path) as file:
            found = re.search(rf"^{name}:\s*(\d+) kB$", file.read(), re.M)
    except OSError:
        return None
    return int(found[1]) * 1024 if found else None


def free():
    """The bytes that are free for new programs, or none where the system doesn't say."""
    left = [line_of("/proc/meminfo", "MemAvailable")]
    most, taken = number_in(f"{GROUP}/memory.max"), number_in(f"{GROUP}/memory.current")
    if most is not None and taken is not None:
        left.append(max(most - taken, 0))
    left = [bytes_of_it for bytes_of_it in left if bytes_of_it is not None]
    return min(left) if left else None


def three_quarters():
    """What the program may take where nobody says: three quarters of what is free."""
    found = free()
    return None if found is None else max(found // 4 * 3, LEAST)


def taken(process):
    """The bytes of memory that a process holds, or none where the system doesn't say."""
    return line_of(f"/proc/{process}/status", "VmRSS")


def limit(process, most):
    """Has a process get no more memory than this. What it asks for beyond is refused to it, which the program answers by `refused Memory`."""
    if most is None or resource is None or not hasattr(resource, "prlimit"):
        return False
    try:
        resource.prlimit(process, resource.RLIMIT_DATA, (most, resource.RLIM_INFINITY))
    except (OSError, ValueError):
        return False
    return True
