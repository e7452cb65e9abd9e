"""Which program runs: the one that this checkout proved, else the release's, else none."""
import dataclasses
import enum
import os

import release
from checksums import source_files, sources_checksum

PROVED = os.path.join("crates", release.NAME, "out", release.NAME)


class Origin(enum.Enum):
    PROVED = "this checkout proved it"
    RELEASE = "the release, of the sources as they stand here"
    OTHER_RELEASE = "the release, of other sources"
    NONE = "there is none"


@dataclasses.dataclass(frozen=True)
class Choice:
    origin: Origin
    path: str = None
    told: str = None  # what a user has to know of the choice, if anything
    commit: str = None  # of a release


def proved_program(top):
    """The proved program where it stands and is no older than its sources; else none."""
    program = os.path.join(top, PROVED)
    if not os.access(program, os.X_OK):
        return None
    built = os.stat(program).st_mtime_ns
    is_old = any(os.lstat(os.path.join(top, path)).st_mtime_ns > built for path in source_files(top))
    return None if is_old else program


def choose(top):
    """The program that ./kq, ./kq-log and ./check run."""
    program = proved_program(top)
    if program:
        return Choice(Origin.PROVED, program)
    folder = os.path.join(top, "release")
    try:
        manifest = release.read(folder)
        if manifest is None:
            return Choice(Origin.NONE)
        program = release.usable_program(folder, manifest)
    except release.Unusable as why:
        return Choice(Origin.NONE, told=f"release: {why}")
    if manifest.sources == sources_checksum(top):
        return Choice(Origin.RELEASE, program, commit=manifest.commit)
    told = f"release: this is the proved program of commit {manifest.commit[:12]}; the sources here are others (./kq --unproved runs these)"
    return Choice(Origin.OTHER_RELEASE, program, told, manifest.commit)
