"""Random log files of all formats, with what Python's own csv and json read in them.

Cells have quotes, blanks, line ends, NULs and byte order marks, in every place of a record and of a batch. The same seed gives the same file."""
import bz2
import csv
import dataclasses
import gzip
import io
import json
import lzma
import random
import re

SIGNS = [
    "a",
    "b",
    "7",
    "é",
    "😀",
    " ",
    " ",
    "\t",
    '"',
    '"',
    ",",
    ";",
    "'",
    "\\",
    "\n",
    "\r",
    "\r\n",
    "\0",
    "\ufeff",
    "|",
    "<|",
    "//",
    "{",
    "[",
    ".",
    "=",
]
BLANK_LINES = re.compile("\n(?:[ \t\r]*\n)+")
COMPRESSED = [None] * 5 + [("gz", gzip.compress), ("bz2", bz2.compress), ("xz", lambda data: lzma.compress(data, preset=0))]


@dataclasses.dataclass
class File:
    """A file, the words to load it with, and what has to come of it: rows of texts, or of values for dynamic columns, and how many rejected lines."""

    name: str
    content: bytes
    words: list
    rows: list
    rejected: int = 0
    piece: int = 2**17  # how many bytes are read at once
    sample: int = 10_000  # how many records show the types
    dynamics: tuple = ()  # the places of dynamic columns


def kept(text):
    """What becomes of a text: blank lines within are one space."""
    return BLANK_LINES.sub(" ", text)


def text(chance, most=6, without=""):
    return "".join(sign for sign in chance.choices(SIGNS, k=chance.randrange(most + 1)) if not any(one in without for one in sign))


def written_csv(chance):
    """Records that Python's csv writes."""
    width, delimiter = chance.randint(1, 4), chance.choice(",,\t;|")
    records = [[text(chance) for _ in range(width)] for _ in range(chance.randrange(12))]
    out = io.StringIO(newline="")
    quoting = chance.choice([csv.QUOTE_ALL, csv.QUOTE_MINIMAL])
    writer = csv.writer(out, delimiter=delimiter, lineterminator=chance.choice(["\n", "\r\n"]), quoting=quoting)
    names = [f"c{place}" for place in range(width)]
    writer.writerow(names)
    writer.writerows(records)
    return names, delimiter, out.getvalue()


def raw_csv(chance):
    """Any text, behind a record of names."""
    width = chance.randint(1, 3)
    names = [f"c{place}" for place in range(width)]
    body = "".join(chance.choices('"",,,\n\n\nax \r\t\0\ufeff', k=chance.randrange(60)))
    return names, ",", ",".join(names) + "\n" + body


def read_csv(content, delimiter):
    """The records of a text by Python's csv, each with its lines. A broken one is none, and costs its first line."""
    lines, place = content.split("\n"), 0
    while place < len(lines):
        reader = csv.reader((line + "\n" for line in lines[place:]), delimiter=delimiter, strict=True)
        try:
            record, count = next(reader), reader.line_num
        except csv.Error:
            record, count = None, 1
        yield record, "\n".join(lines[place : place + count])
        place += count


def csv_file(chance):
    names, delimiter, content = (written_csv if chance.random() < 0.6 else raw_csv)(chance)
    rows, rejected = [], 0
    for record, raw in list(read_csv(content, delimiter))[1:]:
        if record is None or len(record) > len(names):
            rejected += raw.count("\n") + 1
        elif record and (len(record) == len(names) or raw.strip()):
            rows.append([kept(cell) for cell in record] + [""] * (len(names) - len(record)))
    words = ["--format", "csv", "--delimiter", delimiter, "--header", "--type", ",".join(f"{name}:string" for name in names)]
    return File("a.csv", content.encode(), words, rows, rejected)


def value(chance, depth):
    """Any value of a dynamic."""
    kind = chance.randrange(6 if depth else 4)
    if kind == 4:
        return [value(chance, depth - 1) for _ in range(chance.randrange(3))]
    if kind == 5:
        return {text(chance): value(chance, depth - 1) for _ in range(chance.randrange(3))}
    return [text(chance), chance.randint(-(2**63), 2**63 - 1), chance.random() < 0.5, None][kind]


def json_file(chance):
    """Objects a line, with broken lines between them, and members that come late."""
    names = ["s", "n", "ok", "d"]
    lines, rows, rejected = [], [], 0
    for place in range(chance.randint(1, 12)):
        record = {"s": text(chance), "n": chance.randint(-(2**63), 2**63 - 1), "ok": chance.random() < 0.5, "d": value(chance, 3)}
        record = {name: record[name] for name in names if not place or chance.random() < 0.8}
        late = {text(chance, 3) + "?": value(chance, 1) for _ in range(chance.randrange(2))} if place > 2 else {}
        lines.append(json.dumps({**record, **late}, ensure_ascii=chance.random() < 0.5))
        rows.append((record, {name: found for name, found in late.items() if found is not None and found != ""}))
        if chance.random() < 0.1:
            lines.append(chance.choice(['{"s":', "[1]", '"x"', "{'s':1}", "7 8", "\0", '{"s":1}{}']))
            rejected += 1
        if chance.random() < 0.1:
            lines.append(chance.choice(["", "  ", "\t\r"]))
    wanted = [
        [
            kept(record.get("s", "")),
            str(record.get("n", "")),
            {True: "true", False: "false", None: ""}[record.get("ok")],
            record.get("d"),
            late or None,
        ]
        for record, late in rows
    ]
    words = ["--type", "s:string,n:long,ok:bool,d:dynamic", "--only", "s,n,ok,d", "--rest", "Rest", "--format", "json"]
    return File("a.json", "\n".join(lines).encode(), words, wanted, rejected, dynamics=(3, 4))


def logfmt_file(chance):
    lines, rows, rejected = [], [], 0
    for _ in range(chance.randint(1, 10)):
        cells = [text(chance), text(chance, 6, ' \t"\n\r\\') or "x"]
        lines.append(f"s={json.dumps(cells[0], ensure_ascii=False)} b={cells[1]}" + chance.choice(["", " ", "\r"]))
        rows.append([kept(cells[0]), cells[1]])
        if chance.random() < 0.1:
            lines.append(chance.choice(['s="open', '="x"', 's="x"y']))
            rejected += 1
    return File("a.log", "\n".join(lines).encode(), ["--format", "logfmt", "--type", "s:string,b:string", "--only", "s,b"], rows, rejected)


def access_file(chance):
    """Lines of combined, or of the same format as nginx names it, with and without a virtual host."""
    kind = chance.choice(["combined", "vhost_combined", "nginx"])
    lines, rows, rejected = [], [], 0
    for _ in range(chance.randint(1, 10)):
        user = chance.choice(["ann", "bo x", "a,b"]) if chance.random() < 0.5 else ""
        path = "/" + text(chance, 6, '"\n\r\\')
        ends = [text(chance, 5, '"\n\r\\') or "x" for _ in range(2)] if chance.random() < 0.8 else [r"a \"b\"", r"\x16,\\"]
        host = "www.example.com:443 " if kind == "vhost_combined" else ""
        lines.append(f'{host}10.0.0.1 - {user or "-"} [10/Oct/2000:13:55:36 -0700] "GET {path} HTTP/1.1" 200 17 "{ends[0]}" "{ends[1]}"')
        virtual = ["www.example.com", "443"] if host else []
        ident = [] if kind == "nginx" else [""]
        dashes = ["" if end == "-" else end for end in ends]
        rows.append(["2000-10-10T13:55:36-07:00", *virtual, "10.0.0.1", *ident, user, "GET", path, "HTTP/1.1", "200", "17", *dashes])
        if chance.random() < 0.1:
            lines.append(chance.choice(["x", "10.0.0.1 - - [", lines[-1][:-1], "\0"]))
            rejected += 1
    named = 'nginx:$remote_addr - $remote_user [$time_local] "$request" $status $body_bytes_sent "$http_referer" "$http_user_agent"'
    return File("a.log", "\n".join(lines).encode(), ["--format", named if kind == "nginx" else kind], rows, rejected)


def lines_file(chance):
    """Lines of text with a datetime in front, and lines that go on."""
    lines, rows = [], []
    for _ in range(chance.randint(1, 8)):
        number, first = len(lines) + 1, "x" + text(chance, 6, "\n\r")
        others = [" " + text(chance, 4, "\n\r") for _ in range(chance.randrange(4))]
        if others and not others[-1].strip(" \t\0"):
            others[-1] = "  end"
        lines += [f"2024-03-01T10:00:00Z {first}", *others]
        rows.append([str(number), "2024-03-01T10:00:00Z", kept("\n".join([first, *others]))])
    return File("a.log", chance.choice(["\n", "\r\n"]).join(lines).encode(), ["--format", "lines"], rows)


KINDS = [csv_file, csv_file, csv_file, json_file, json_file, logfmt_file, access_file, lines_file]


def random_file(seed):
    """The file of a seed."""
    chance = random.Random(seed)
    file = chance.choice(KINDS)(chance)
    file.words += ["--batch", str(chance.choice([1, 1, 2, 3, 7, 10_000]))]
    # Where a mark at the start of a file is dropped, one more keeps the one that belongs to the first cell.
    if file.content.startswith(b"\xef\xbb\xbf") or chance.random() < 0.1:
        file.content = b"\xef\xbb\xbf" + file.content
    file.piece, file.sample = chance.choice([8, 9, 40, 2**17]), chance.choice([1, 3, 10_000])
    compressed = chance.choice(COMPRESSED)
    if compressed:
        file.name, file.content = f"{file.name}.{compressed[0]}", compressed[1](file.content)
    return file
