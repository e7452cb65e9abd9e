"""A release: the program that the gate built, compressed, and the manifest that says what it was built from."""
import dataclasses
import hashlib
import json
import lzma
import os
import stat
import subprocess
import tempfile

from checksums import file_checksum

NAME = "kq_console"
MANIFEST = "manifest.json"
PACKED = f"{NAME}.xz"
PIECE = 1 << 20
SECONDS_TO_START = 10
ELSEWHERE = "XDG_CACHE_HOME names another place"


class Unusable(Exception):
    """The release can't be run here; the text says why."""


@dataclasses.dataclass(frozen=True)
class Manifest:
    commit: str
    sources: str  # their checksum
    program: str  # its checksum
    size: int
    system: str
    kit: str
    gate: list  # the last lines that it printed

    def checksum(self):
        return hashlib.sha256(json.dumps(dataclasses.asdict(self), sort_keys=True).encode()).hexdigest()


def this_system():
    here = os.uname()
    return f"{here.sysname} {here.machine}"


def write(folder, program, manifest):
    """Writes a release. The manifest comes last: where this is stopped halfway, the old one doesn't fit and nothing is run."""
    with open(os.path.join(folder, PACKED + ".part"), "wb") as file:
        packer = lzma.LZMACompressor(preset=9 | lzma.PRESET_EXTREME)
        with open(program, "rb") as plain:
            while piece := plain.read(PIECE):
                file.write(packer.compress(piece))
        file.write(packer.flush())
    with open(os.path.join(folder, MANIFEST + ".part"), "w", encoding="utf-8") as file:
        json.dump({**dataclasses.asdict(manifest), "checksum": manifest.checksum()}, file, indent=1)
        file.write("\n")
    for name in (PACKED, MANIFEST):
        os.replace(os.path.join(folder, name + ".part"), os.path.join(folder, name))


def read(folder):
    """The manifest of the release in a folder, or none where there is no release."""
    path = os.path.join(folder, MANIFEST)
    if not os.path.lexists(path) and not os.path.lexists(os.path.join(folder, PACKED)):
        return None
    try:
        with open(path, encoding="utf-8") as file:
            said = json.load(file)
        checksum = said.pop("checksum")
        manifest = Manifest(**said)
        is_right = manifest.checksum() == checksum
    except OSError as fault:
        raise Unusable(f"{path} can't be read: {fault.strerror}") from fault
    except (ValueError, TypeError, AttributeError, KeyError) as fault:
        raise Unusable(f"{path} is damaged") from fault
    if not is_right:
        raise Unusable(f"{path} is damaged: its checksum is wrong")
    return manifest


def cache():
    base = os.environ.get("XDG_CACHE_HOME") or os.path.expanduser("~/.cache")
    return os.path.join(base, "kq")


def usable_program(folder, manifest):
    """The path of the unpacked program, which is unpacked now where it wasn't before. Each byte of it has been compared, by the checksum."""
    if manifest.system != this_system():
        raise Unusable(f"the release of commit {manifest.commit[:12]} is for {manifest.system}, and this is {this_system()}")
    room = os.path.join(cache(), manifest.program[:16])
    path = os.path.join(room, NAME)
    try:
        for place in (cache(), room):
            make_private(place)
        if not is_right(path, manifest):
            unpack(os.path.join(folder, PACKED), path, manifest)
    except OSError as fault:
        raise Unusable(f"the release can't be unpacked into {room}: {fault.strerror}; {ELSEWHERE}") from fault
    return path


def make_private(place):
    """Makes a folder into which nobody else can write, or finds that it is one."""
    os.makedirs(place, mode=0o700, exist_ok=True)
    found = os.lstat(place)
    if not stat.S_ISDIR(found.st_mode) or found.st_uid != os.geteuid() or found.st_mode & 0o022:
        raise Unusable(f"{place} is a link, belongs to another user or may be written by others, so the release isn't unpacked there; {ELSEWHERE}")


def is_right(path, manifest):
    return os.path.isfile(path) and not os.path.islink(path) and os.access(path, os.X_OK) and file_checksum(path) == manifest.program


def unpack(packed, path, manifest):
    """Puts the program in its place once all of it is there, fits its checksum and starts."""
    with open(packed, "rb") as file:
        handle, part = tempfile.mkstemp(dir=os.path.dirname(path))
        try:
            with open(handle, "wb") as plain:
                copy_unpacked(file, plain, packed, manifest)
                os.fchmod(plain.fileno(), 0o700)
                plain.flush()
                os.fsync(plain.fileno())
            try_to_start(part)
            os.replace(part, path)
        finally:
            if os.path.exists(part):
                os.remove(part)


def compare_packed(folder, manifest):
    """Finds whether the compressed program is the manifest's."""
    packed = os.path.join(folder, PACKED)
    try:
        with open(packed, "rb") as file, open(os.devnull, "wb") as nowhere:
            copy_unpacked(file, nowhere, packed, manifest)
    except OSError as fault:
        raise Unusable(f"{packed} can't be read: {fault.strerror}") from fault


def copy_unpacked(file, plain, packed, manifest):
    whole, size = hashlib.sha256(), 0
    try:
        with lzma.open(file) as unpacked:
            # No more than the program has is written, whatever the file holds.
            while size <= manifest.size and (piece := unpacked.read(PIECE)):
                size += len(piece)
                whole.update(piece)
                plain.write(piece)
    except EOFError as fault:
        raise Unusable(f"{packed} is cut short") from fault
    except lzma.LZMAError as fault:
        raise Unusable(f"{packed} is damaged") from fault
    if size != manifest.size or whole.hexdigest() != manifest.program:
        raise Unusable(f"{packed} isn't the program of {MANIFEST}: its checksum is wrong")


def try_to_start(part):
    """Finds whether the system runs it: the disk may forbid it, and the C library or the processor be another. An empty script has status 0."""
    if not os.access(part, os.X_OK):
        raise Unusable(f"no program may be run from {os.path.dirname(part)}, where the release is unpacked; {ELSEWHERE}")
    quiet = {"stdin": subprocess.DEVNULL, "stdout": subprocess.DEVNULL, "stderr": subprocess.DEVNULL}
    try:
        status = subprocess.run([part], timeout=SECONDS_TO_START, **quiet).returncode
    except OSError as fault:
        raise Unusable(f"the release's program doesn't start here: {fault.strerror}; it needs glibc") from fault
    except subprocess.TimeoutExpired as fault:
        raise Unusable(f"the release's program doesn't end here on an empty script in {SECONDS_TO_START} seconds") from fault
    if status:
        raise Unusable(f"the release's program ends here with status {status} on an empty script")

