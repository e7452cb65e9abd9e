"""Formats of log lines: Common and Combined Log Format, and syslog as RFC 3164 and RFC 5424 have it."""
import re
from decimal import Decimal

import jsons
import log_formats
from names import counted, distinct_names
from times import MONTH

TEXT = r'[^"\\\n]*(?:\\.[^"\\\n]*)*'
MOMENT = r"\[([^\]\n]*)\]"
ADDRESS = r"(?:[0-9]{1,3}(?:\.[0-9]{1,3}){3}|[0-9A-Fa-f]*:[0-9A-Fa-f:.]+)"
# A virtual host in front of the address: with a port, or before what can only be an address.
VIRTUAL = rf"(?:([^ \n]+):([0-9]+) (?!- )|([^ \n]+) (?={ADDRESS} ))"
COMMON = rf'([^ \n]+) ([^ \n]+) ([^\[\n]+?) {MOMENT} "({TEXT})" ([0-9]{{3}}|-) ([0-9]+|-)'
COMBINED = rf'{COMMON} "({TEXT})" "({TEXT})"'
# Fields behind those of the format.
VALUE = rf'(?:"{TEXT}"|[^ "\n]+)'
TAIL = rf"((?: {VALUE})*)"
VALUES = re.compile(rf' (?:"({TEXT})"|([^ "\n]+))')
TOKEN = r"[!#$%&'*+.^_`|~0-9A-Za-z-]+"
REQUEST = re.compile(rf"^(?:({TOKEN}) ([^\n]*) (HTTP/[0-9.]+)|({TOKEN}) ([^ \n]+)|([^\n]*))$", re.M)
ACCESS = ["Timestamp", "Host", "Ident", "User", "Method", "Path", "Protocol", "Status", "Bytes"]

PRIORITY = r"<([0-9]{1,3})>"
OLD = (
    rf"(?:{PRIORITY})?({MONTH} [ 0-9]?[0-9] (?:[0-9]{{4}} )?[0-9:]{{8}}(?:\.[0-9]+)?|[0-9]{{4}}-[0-9]{{2}}-[0-9]{{2}}T[0-9:.]+(?:Z|[+-][0-9:]+)?) ([^ \n]+)"
    r"(?: ([^ :\[\]\n]+)(?:\[([^\]\n]*)\])?:(?= |$))?(?: ([^\n]*))?"
)
ELEMENT = r'\[[^ =\]"\n]+(?: [^ =\]"\n]+="[^"\\\n]*(?:\\.[^"\\\n]*)*")*\]'
NEW = rf"{PRIORITY}1 ([^ \n]+) ([^ \n]+) ([^ \n]+) ([^ \n]+) ([^ \n]+) (-|(?:{ELEMENT})+)(?: ([^\n]*))?"
PARTS = re.compile(r'\[([^ =\]"]+)|([^ =\]"]+)="([^"\\]*(?:\\.[^"\\]*)*)"')
ENDS = re.compile("\r$", re.M)
ESCAPED = re.compile(r'\\(["\\\]])')


def dashed(values):
    """The values, where a dash alone says that there is none."""
    return ["" if value == "-" else value for value in values] if "-" in values else values


class Requests:
    """Reads requests of HTTP as `METHOD PATH PROTOCOL`, and counts those that aren't quite of this form."""

    def __init__(self):
        self.blanks = self.others = 0

    def columns(self, texts):
        """Method, path and protocol of each. What is of another form is a path as a whole."""
        if not texts:
            return [], [], []
        found = REQUEST.findall("\n".join(texts))
        methods, paths, protocols = [], [], []
        for method, path, protocol, short, plain, whole in found:
            methods.append(method or short)
            paths.append(path or plain or ("" if whole == "-" else whole))
            protocols.append(protocol)
            self.blanks += " " in path
            self.others += bool(whole) and whole != "-"
        return methods, paths, protocols

    def told(self):
        if self.blanks:
            yield f"{counted(self.blanks, 'request')} with a blank in the path"
        if self.others:
            yield f"{counted(self.others, 'request')} not of the form METHOD PATH HTTP/VERSION: Path has the whole of them"


class Lines:
    """Records that are lines of one form."""

    def __init__(self, pattern):
        self.lines = re.compile(f"^{pattern}$", re.M)
        self.one = re.compile(pattern)

        self.requests = Requests()

    def begin(self):
        """Records of the file follow. What was read before showed its types."""
        self.requests = Requests()

    def told(self):
        """What is to be said of the records that were read."""
        return self.requests.told()

    def read(self, chunk, problems):
        """The columns of a chunk, and the lines that its records are of, none where each line is one."""
        text = chunk.text()
        if "\r" in text:
            text = ENDS.sub("", text)
        found = self.lines.findall(text) if chunk.lines else []
        if self.lines.groups == 1:
            found = [(value,) for value in found]
        places = None
        if len(found) != len(chunk.lines) or not self.are_of_form(found):
            found, places = self.one_by_one(text, chunk, problems)
        return self.columns([list(column) for column in zip(*found)], len(found)), places

    def of_form(self, match):
        return True

    def are_of_form(self, found):
        return True

    def one_by_one(self, text, chunk, problems):
        found, places = [], []
        for place, line in enumerate(text.split("\n")):
            match = self.one.fullmatch(line)
            if match and self.of_form(match):
                found.append(match.groups(""))
                places.append(place)
            elif line.strip():
                problems.meet("line", chunk.place(place), f"the line isn't of the format {self.name}: {line[:60]!r}")
                problems.reject(chunk.raw(place, place + 1))
        return found, places


class Access(Lines):
    """Common Log Format, or Combined with two cells more; with or without a virtual host in front, and with fields behind them."""

    def __init__(self, combined, virtual=False, texts=()):
        self.name = ("vhost_" if virtual else "") + ("combined" if combined else "common")
        self.virtual = virtual
        super().__init__((VIRTUAL if virtual else "") + (COMBINED if combined else COMMON) + TAIL)
        matches = list(filter(None, map(self.one.fullmatch, texts)))
        self.extra = [f"Extra{place}" for place in range(1, 1 + max((len(VALUES.findall(match[match.re.groups])) for match in matches), default=0))]
        known = [ACCESS[0], *(["VirtualHost", "Port"] if virtual else []), *ACCESS[1:], *(["Referer", "UserAgent"] if combined else [])]
        self.fields = known + self.extra
        self.types = {
            **dict.fromkeys(known, "string"),
            "Timestamp": "datetime",
            "Status": "long",
            "Bytes": "long",
            **({"Port": "long"} if virtual else {}),
        }

    def are_of_form(self, found):
        return all(not groups[-1] or len(VALUES.findall(groups[-1])) <= len(self.extra) for groups in found)

    def of_form(self, match):
        """Whether a line has no more fields behind the format than the first lines have."""
        return len(VALUES.findall(match[match.re.groups])) <= len(self.extra)

    def columns(self, groups, count):
        if not groups:
            return [[] for _ in self.fields]
        hosts = []
        if self.virtual:
            with_port, port, alone, *groups = groups
            hosts = [[host or other for host, other in zip(with_port, alone)], port]
        host, ident, user, moment, request, status, size, *others, tails = groups
        return [
            moment,
            *hosts,
            host,
            *map(dashed, (ident, user)),
            *self.requests.columns(request),
            *map(dashed, (status, size, *others)),
            *self.behind(tails, count),
        ]

    def behind(self, tails, count):
        """The fields behind those of the format."""
        if not self.extra:
            return []
        rows = [[quoted or plain for quoted, plain in VALUES.findall(tail)] for tail in tails]
        return [dashed([row[place] if place < len(row) else "" for row in rows]) for place in range(len(self.extra))]


class Named(Lines):
    """Lines of a format that nginx or Apache writes, by the parts of which log_formats.py makes it."""

    def __init__(self, name, parts):
        self.name = name
        self.values = parts[1::2]
        super().__init__(
            "".join(re.escape(part) if place % 2 == 0 else f"({pattern_of(part, parts[place + 1])})" for place, part in enumerate(parts))
        )
        wanted = [name for field in self.values for name in (("Method", "Path", "Protocol") if field.kind == "request" else (field.name,))]
        self.given = distinct_names(wanted)
        # The moment comes first, as in the other formats of logs.
        self.fields = sorted(self.given, key=lambda name: name != "Timestamp")
        self.types = dict(self.typed())

    def typed(self):
        names = iter(self.given)
        for field in self.values:
            if field.kind == "request":
                yield from ((next(names), "string") for _ in range(3))
            else:
                name = next(names)
                if field.kind != "found":
                    yield name, "timespan" if field.kind in SECONDS else field.kind

    def columns(self, groups, count):
        found = []
        for field, values in zip(self.values, groups or [[] for _ in self.values]):
            if field.kind == "request":
                found += self.requests.columns(values)
            elif field.kind in SECONDS:
                found.append([timespan(value, SECONDS[field.kind]) for value in values])
            else:
                found.append(dashed(values))
        columns = dict(zip(self.given, found))
        return [columns[name] for name in self.fields]


SECONDS = {"seconds": "s", "milliseconds": "ms", "microseconds": "microsecond"}
NUMBER = re.compile(r"[0-9]+(?:\.[0-9]+)?")
SEVERAL = re.compile(", | : ")


def timespan(value, unit):
    """A number of a unit as a timespan. Times of several upstreams are added up."""
    numbers = [number for number in SEVERAL.split(value) if number not in ("-", "")]
    if not numbers:
        return ""
    if not all(map(NUMBER.fullmatch, numbers)):
        return value
    return f"{numbers[0] if len(numbers) == 1 else sum(map(Decimal, numbers))}{unit}"


def pattern_of(field, behind):
    """What a value may be that has this text behind it: all up to it, or, between quotes, up to the next one without a backslash."""
    if not behind:
        return "[^\n]*"
    if behind[0] == '"':
        return TEXT
    if field.is_list and behind[0] in " ,:":
        return "[^ ,\n]+(?:(?:, | : )[^ ,\n]+)*"
    first, rest = re.escape(behind[0]), re.escape(behind[1:])
    if field.name == "User" and len(behind) > 1:
        # A name may have blanks, and ends where all of the text behind it comes.
        return f"[^{first}\n]*(?:{first}(?!{rest})[^{first}\n]*)*"
    return f"[^{first}\n]*"


class OldSyslog(Lines):
    """RFC 3164, with or without its priority, and what many write in its place: a timestamp as RFC 5424 has it."""

    name = "syslog"
    fields = ["Timestamp", "Facility", "Severity", "Host", "Application", "Process", "Message"]
    types = {**dict.fromkeys(fields, "string"), "Timestamp": "datetime", "Facility": "long", "Severity": "long"}

    def __init__(self):
        super().__init__(OLD)

    def columns(self, groups, count):
        if not groups:
            return [[] for _ in self.fields]
        priority, moment, host, application, process, message = groups
        return [moment, *facilities(priority), host, application, process, message]


class NewSyslog(Lines):
    """RFC 5424."""

    name = "syslog5424"
    fields = ["Timestamp", "Facility", "Severity", "Host", "Application", "Process", "MessageId", "Data", "Message"]
    types = {**dict.fromkeys(fields, "string"), "Timestamp": "datetime", "Facility": "long", "Severity": "long", "Data": "dynamic"}

    def __init__(self):
        super().__init__(NEW)

    def columns(self, groups, count):
        if not groups:
            return [[] for _ in self.fields]
        priority, moment, host, application, process, message_id, data, message = groups
        elements = ["" if text == "-" else jsons.written(structured(text)) for text in data]
        # A message in UTF-8 may begin with a byte order mark that is no part of it.
        plain = [text[1:] if text[:1] == "\ufeff" else text for text in message]
        return [*map(dashed, (moment,)), *facilities(priority), *map(dashed, (host, application, process, message_id)), elements, plain]


def facilities(priorities):
    """The facilities and severities that priorities are made of."""
    known = {text: divmod(int(text), 8) if text else ("", "") for text in set(priorities)}
    return [str(known[text][0]) for text in priorities], [str(known[text][1]) for text in priorities]


def structured(text):
    """Structured data as a bag of bags; of a name that stands several times, an array."""
    bags, bag = {}, None
    for element, name, value in PARTS.findall(text):
        if element:
            bag = bags.setdefault(element, {})
            continue
        plain = ESCAPED.sub(r"\1", value)
        if name not in bag:
            bag[name] = plain
        elif isinstance(bag[name], list):
            bag[name].append(plain)
        else:
            bag[name] = [bag[name], plain]
    return bags


FORMATS = {
    "vhost_combined": lambda texts=(): Access(True, True, texts),
    "vhost_common": lambda texts=(): Access(False, True, texts),
    "combined": lambda texts=(): Access(True, False, texts),
    "common": lambda texts=(): Access(False, False, texts),
    "syslog5424": lambda texts=(): NewSyslog(),
    "syslog": lambda texts=(): OldSyslog(),
}


def named(text):
    """The reader of `nginx:FORMAT` or `apache:FORMAT`; a ValueError says what is wrong with the format."""
    program, _, said = text.partition(":")
    return Named(program, {"nginx": log_formats.nginx, "apache": log_formats.apache}[program](said))
