"""JSON lines: an object a line, whose members are the cells of a record."""
import jsons
from problems import Stopped

NONE = type(None)


class Objects:
    """Reads objects, a chunk of lines in one go. `clean` says that dynamics can hold all that stands in the last chunk."""

    name = "json"

    def __init__(self):
        self.quick = jsons.Quick()
        self.clean = True

    def read(self, chunk, problems):
        """The objects of a chunk, and the lines that they stand on, none where each line has one."""
        lines = chunk.text().split("\n") if chunk.lines else []
        values = self.quick.read(lines) if lines else []
        self.clean = values is not None and not self.quick.inexact and all(map(jsons.is_shallow, lines))
        if values is not None and set(map(type, values)) <= {dict}:
            return values, None
        found, places = [], []
        for place, line in enumerate(lines):
            if not line.strip():
                continue
            value, why = self.value(line)
            if why:
                problems.meet("line", chunk.place(place), why)
                problems.reject(chunk.raw(place, place + 1))
            else:
                found.append(value)
                places.append(place)
        return found, places

    @staticmethod
    def value(line):
        """The object of a line; or why it is none."""
        try:
            value = jsons.exact(line)
        except RecursionError:
            return None, "the line nests too deep to be read"
        except ValueError as fault:
            return None, f"the line is no JSON ({jsons.told(fault)})"
        if not isinstance(value, dict):
            return None, f"the line is no JSON object: {line[:60]!r}"
        return value, None


def text_of(value):
    """A value as the text of a cell that isn't dynamic."""
    if value is None:
        return ""
    if isinstance(value, bool):
        return "true" if value else "false"
    return jsons.source(value) if isinstance(value, (dict, list)) else str(value)


def texts_of(values):
    """Values as texts of cells that aren't dynamic."""
    kinds = set(map(type, values))
    if kinds == {str}:
        return values
    if kinds <= {str, NONE}:
        return [value or "" for value in values]
    if kinds <= {int, NONE}:
        return ["" if value is None else str(value) for value in values]
    return list(map(text_of, values))


def dynamics_of(values, clean, problems, at):
    """Values as the texts of dynamic cells, and the places of the records that are rejected. `at` says where a record is."""
    if clean:
        return ["" if text == "null" else text for text in jsons.written_column(values)], set()
    found, rejected = [], set()
    for place, value in enumerate(values):
        text, choice = dynamic_of(value, problems, lambda: at(place))
        found.append(text)
        if choice == "reject":
            rejected.add(place)
    return found, rejected


def dynamic_of(value, problems, at):
    """A value as the text of a dynamic cell, and what became of what it can't hold."""
    if value is None:
        return "", None
    if jsons.depth(value) > jsons.DEEPEST:
        kind, why = "deep", "a member nests deeper than 127 levels"
    elif jsons.has_inexact(value):
        kind, why = "number", f"a number of {jsons.source(value)[:60]!r} isn't whole, or is outside 64 bits"
    else:
        return jsons.written(value), None
    choice = problems.meet(kind, at(), why)
    try:
        return jsons.written(jsons.source(value)) if choice == "text" else jsons.written(value), choice
    except RecursionError:
        raise Stopped(f"{at()}: a member nests too deep to be kept as text") from None


class Journal(Objects):
    """What `journalctl -o json` writes. Its fields of most use are columns, and all others are members of one."""

    name = "journald"
    columns = {
        "__REALTIME_TIMESTAMP": "Timestamp",
        "_HOSTNAME": "Host",
        "_SYSTEMD_UNIT": "Unit",
        "SYSLOG_IDENTIFIER": "Application",
        "_PID": "Process",
        "PRIORITY": "Severity",
        "MESSAGE": "Message",
    }
    others = "Fields"
    fields = [*columns.values(), others]
    types = {**dict.fromkeys(columns.values(), "string"), "Timestamp": "datetime", "Severity": "long", others: "dynamic"}

    def read(self, chunk, problems):
        found, places = super().read(chunk, problems)
        return list(map(self.record, found)), places

    def record(self, entry):
        """An entry as a record of columns. Of a field that came several times, journalctl makes an array."""
        values = {name: entry.get(field) for field, name in self.columns.items()}
        if is_bytes(values["Message"]):
            values["Message"] = bytes(values["Message"]).decode("utf-8", "surrogateescape")
        rest = {field: value for field, value in entry.items() if field not in self.columns}
        return {**values, self.others: rest or None}


def is_bytes(value):
    """Whether a value is text that journalctl writes as the numbers of its bytes."""
    return isinstance(value, list) and bool(value) and all(type(one) is int and 0 <= one < 256 for one in value)
