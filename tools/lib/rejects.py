"""Files of rejected records: as they were, so that they can be mended and loaded. None is ever written over another file."""
import itertools
import os
import tempfile


class Rejects:
    """The file that --rejects names. Before the records of a file with names of columns these stand, so that it can be loaded itself."""

    def __init__(self, path, mode="xb"):
        self.path = path
        self.file = open(path, mode)
        self.heading = self.written = b""
        self.count, self.fresh = 0, False

    def begin(self, source, heading):
        """Records of another file follow."""
        self.heading = heading

    def write(self, raw):
        if self.heading != self.written:
            self.file.write(self.heading)
            self.written = self.heading
        self.file.write(raw)
        self.count += 1
        self.fresh = True

    def told(self):
        """The files that have got records since this was asked last, each with how many it has."""
        self.file.flush()
        fresh, self.fresh = self.fresh, False
        return [(self.path, self.count)] if fresh else []

    def close(self):
        self.file.close()


class Beside:
    """Files beside those that are loaded, each made when its first record is rejected."""

    def __init__(self):
        self.source, self.heading, self.files = None, b"", {}

    def begin(self, source, heading):
        self.source, self.heading = source, heading

    def write(self, raw):
        if self.source not in self.files:
            self.files[self.source] = made_beside(self.source)
        file = self.files[self.source]
        file.begin(self.source, self.heading)
        file.write(raw)

    def told(self):
        return [told for file in self.files.values() for told in file.told()]

    def close(self):
        for file in self.files.values():
            file.close()


def made_beside(source):
    """A new file FILE.rejects, or FILE.2.rejects and so on; where its folder can't be written, in the current one or that of temporary files."""
    name = "standard-input" if source in (None, "-") else os.path.basename(source)
    folder = "" if source in (None, "-") else os.path.dirname(source)
    for place in dict.fromkeys((folder, "", tempfile.gettempdir())):
        for number in itertools.count(1):
            try:
                return Rejects(os.path.join(place, f"{name}.rejects" if number == 1 else f"{name}.{number}.rejects"))
            except FileExistsError:
                continue
            except OSError as found:
                fault = found
                break
    raise fault


def rejects_of(options):
    """The file of rejected records, where one is asked for. It is none that is there."""
    path = options.rejects
    if path is None:
        return None
    if any(name != "-" and os.path.exists(path) and os.path.exists(name) and os.path.samefile(name, path) for name in options.files):
        raise ValueError(f"--rejects {path}: this file is to be loaded")
    if os.path.isfile(path) and os.path.getsize(path):
        raise ValueError(f"--rejects {path}: this file is there already; name another one")
    try:
        return Rejects(path, "ab")
    except OSError as fault:
        raise ValueError(f"--rejects {path}: {fault.strerror}") from None
