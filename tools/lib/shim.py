"""What tools/faults.c counts of a program, and how it is told which call of a kind fails."""
import ctypes

KINDS = ["allocation", "read", "write", "create", "sync", "rename"]


class Told(ctypes.Structure):
    """The struct of tools/faults.c, which the program and whoever started it share as a file."""

    _fields_ = [
        ("calls", ctypes.c_ulong * len(KINDS)),
        ("failed", ctypes.c_ulong),
        ("unsynced", ctypes.c_ulong),
        ("path", ctypes.c_char * 256),
    ]

    def calls_of(self, kind):
        return self.calls[KINDS.index(kind)]


def put_empty(path):
    with open(path, "wb") as told:
        told.write(bytes(ctypes.sizeof(Told)))


def read(path):
    with open(path, "rb") as told:
        return Told.from_buffer_copy(told.read())


def environment(shim, path, kind, at, step, end=None):
    """The variables by which a program has its `at`th call of a kind fail, or ends there with the status `end`."""
    found = {"LD_PRELOAD": shim, "FAULTS": path, "FAULTS_KIND": kind, "FAULTS_AT": str(at), "FAULTS_STEP": str(step)}
    return found if end is None else {**found, "FAULTS_END": str(end)}


def with_faults(shim, path, faults, step):
    """The same where several calls fail: of each its kind, its number and the file whose calls alone are counted, or 0, 1 or 2, or "" for all."""
    kinds, numbers, files = (",".join(str(fault[i]) for fault in faults) for i in range(3))
    return {**environment(shim, path, kinds, numbers, step), "FAULTS_OF": files}
