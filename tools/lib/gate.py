"""The stamp that the gate leaves when it has passed: over which sources, and with which program."""
import dataclasses
import json
import os
import subprocess

from checksums import file_checksum
from programs import PROVED

STAMP = os.path.join(os.path.dirname(PROVED), "gate.json")


@dataclasses.dataclass(frozen=True)
class Stamp:
    sources: str
    program: str
    kit: str
    lines: list


def write(top, sources, lines):
    """Writes the stamp of a run that passed over these sources and printed these lines."""
    said = [line.rstrip() for line in lines if line.strip()]
    stamp = Stamp(sources, file_checksum(os.path.join(top, PROVED)), this_kit(), said)
    with open(os.path.join(top, STAMP), "w", encoding="utf-8") as file:
        json.dump(dataclasses.asdict(stamp), file, indent=1)


def read(top):
    """The stamp of the last run, or none where it didn't pass."""
    try:
        with open(os.path.join(top, STAMP), encoding="utf-8") as file:
            return Stamp(**json.load(file))
    except (FileNotFoundError, ValueError, TypeError):
        return None


def remove(top):
    if os.path.exists(os.path.join(top, STAMP)):
        os.remove(os.path.join(top, STAMP))


def this_kit():
    """The kit and its logic, as rt says them."""
    return subprocess.run(["rt", "version"], stdout=subprocess.PIPE, text=True, check=True).stdout.strip()
