"""Formats of access logs as nginx's log_format and Apache's LogFormat write them (ngx_http_log_module, mod_log_config)."""
import dataclasses
import re

VARIABLE = re.compile(r"\$(?:\{(\w+)\}|(\w+))")
DIRECTIVE = re.compile(r"%[!0-9,<>]*(?:\{([^}]*)\})?[!0-9,<>]*(\^t[io]|[A-Za-z%])")
QUOTED = re.compile(r"'((?:[^'\\]|\\.)*)'|\"((?:[^\"\\]|\\.)*)\"")
ESCAPED = re.compile(r"\\(.)", re.S)
SIGNS = {"n": "\n", "t": "\t", "r": "\r"}


@dataclasses.dataclass(frozen=True)
class Field:
    """A value of a line: the name of its column, and how it is read; "found" stands for a type that the values show."""

    name: str
    kind: str = "found"  # or "string", "long", "datetime", "request", "seconds", "milliseconds", "microseconds"
    is_list: bool = False  # values of several upstreams, with `, ` or ` : ` between them


# The variables of nginx whose columns aren't called after them, or whose types are known.
NGINX = {
    "remote_addr": Field("Host", "string"),
    "remote_user": Field("User", "string"),
    "time_local": Field("Timestamp", "datetime"),
    "time_iso8601": Field("Timestamp", "datetime"),
    "msec": Field("Timestamp", "datetime"),
    "request": Field("Request", "request"),
    "request_method": Field("Method", "string"),
    "request_uri": Field("Path", "string"),
    "server_protocol": Field("Protocol", "string"),
    "status": Field("Status", "long"),
    "body_bytes_sent": Field("Bytes", "long"),
    "bytes_sent": Field("BytesSent", "long"),
    "request_length": Field("RequestLength", "long"),
    "request_time": Field("RequestTime", "seconds"),
    "request_id": Field("RequestId", "string"),
    "host": Field("VirtualHost", "string"),
    "http_referer": Field("Referer", "string"),
    "http_user_agent": Field("UserAgent", "string"),
}
APACHE = {
    "a": Field("ClientAddress", "string"),
    "A": Field("LocalAddress", "string"),
    "B": Field("Bytes", "long"),
    "b": Field("Bytes", "long"),
    "D": Field("Duration", "microseconds"),
    "f": Field("File", "string"),
    "h": Field("Host", "string"),
    "H": Field("Protocol", "string"),
    "I": Field("BytesReceived", "long"),
    "k": Field("KeepAlive", "long"),
    "l": Field("Ident", "string"),
    "L": Field("LogId", "string"),
    "m": Field("Method", "string"),
    "O": Field("BytesSent", "long"),
    "p": Field("Port", "long"),
    "P": Field("Process", "long"),
    "q": Field("Query", "string"),
    "r": Field("Request", "request"),
    "R": Field("Handler", "string"),
    "s": Field("Status", "long"),
    "S": Field("BytesTransferred", "long"),
    "T": Field("Duration", "seconds"),
    "u": Field("User", "string"),
    "U": Field("Path", "string"),
    "v": Field("VirtualHost", "string"),
    "V": Field("ServerName", "string"),
    "X": Field("Connection", "string"),
}
NAMED = "Ceino"
UNITS = {"s": "seconds", "ms": "milliseconds", "us": "microseconds"}
MOMENTS = ("sec", "msec", "usec")


def camel(text):
    """A name such as `upstream_response_time` or `X-Request-Id` as the name of a column."""
    return "".join(word[:1].upper() + word[1:] for word in re.split("[^A-Za-z0-9]+", text)) or "Value"


def unescaped(text):
    return ESCAPED.sub(lambda found: SIGNS.get(found[1], found[1]), text)


def quoted_parts(text):
    return "".join(unescaped(found[1] if found[1] is not None else found[2]) for found in QUOTED.finditer(text))


def nginx(text):
    """The literal texts and fields of a format of nginx, written as it is or as a whole directive `log_format NAME '..' '..';`."""
    directive = re.match(r"\s*log_format\s+\S+\s+(?:escape=(\w+)\s+)?", text)
    if directive and directive[1] == "json":
        raise ValueError("a format with escape=json is JSON lines: --format json")
    text = quoted_parts(text[directive.end() :]) if directive else text
    parts, before = [], 0
    for found in VARIABLE.finditer(text):
        parts += [text[before : found.start()], variable(found[1] or found[2])]
        before = found.end()
    return checked([*parts, text[before:]], "$VARIABLE")


def variable(name):
    if name in NGINX:
        return NGINX[name]
    if re.fullmatch("upstream_.*_time", name):
        return Field(camel(name), "seconds", is_list=True)
    return Field(camel(name[5:] if name.startswith("http_") else name), is_list=name.startswith("upstream_"))


def apache(text):
    """The literal texts and fields of a format of Apache, written as it is or as a whole directive `LogFormat ".." NAME`."""
    directive = re.match(r"\s*LogFormat\s+", text)
    text = quoted_parts(text[directive.end() :]) if directive else unescaped(text)
    parts, before, literal = [], 0, ""
    for found in DIRECTIVE.finditer(text):
        literal += text[before : found.start()]
        before = found.end()
        if found[2] == "%":
            literal += "%"
            continue
        field, left, right = value_of(found[2], found[1])
        parts += [literal + left, field]
        literal = right
    return checked([*parts, literal + text[before:]], "%DIRECTIVE")


def value_of(letter, said):
    """The field of a directive, and what stands around its value."""
    if letter == "t" and said is None:
        return Field("Timestamp", "datetime"), "[", "]"
    if letter == "t":
        said = said.split(":", 1)[-1] if said.startswith(("begin:", "end:")) else said
        return Field("Timestamp", "datetime" if said in MOMENTS or not said.endswith("_frac") else "found"), "", ""
    if letter == "T" and said:
        if said not in UNITS:
            raise ValueError(f"%{{{said}}}T: the units are {', '.join(UNITS)}")
        return Field("Duration", UNITS[said]), "", ""
    if letter in NAMED or letter.startswith("^"):
        if not said:
            raise ValueError(f"%{letter} needs a name, as %{{NAME}}{letter}")
        return Field(camel(said), "string" if camel(said) in ("Referer", "UserAgent") else "found"), "", ""
    if letter not in APACHE:
        raise ValueError(f"there is no directive %{letter}")
    return APACHE[letter], "", ""


def checked(parts, what):
    """The parts, of which every second one is a field; a ValueError says what keeps lines from being cut by them."""
    if len(parts) < 2:
        raise ValueError(f"the format has no {what}")
    if "" in parts[2:-1:2]:
        raise ValueError("between two values of a format there has to be some sign")
    if any("\n" in literal for literal in parts[::2]):
        raise ValueError("the format has a line end, and a record is a line")
    return parts
