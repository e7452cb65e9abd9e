#!/usr/bin/env python3
"""answers.py access|audit: prints what the program has to answer to access.make or audit.make.

The answers come from the lines of access.log and audit.jsonl alone, and are computed in this file's own way.
"""

import datetime
import json
import re
import sys
from collections import Counter, defaultdict
from pathlib import Path

FOLDER = Path(__file__).resolve().parent
TICKS = 10_000_000
LINE = re.compile(
    r'(?P<Host>\S+) \S+ (?P<User>.+?) \[(?P<Time>[^]]+)\] "(?P<Request>(?:[^"\\]|\\.)*)" (?P<Status>\d+) (?P<Bytes>\d+|-)'
    r' "(?P<Referer>(?:[^"\\]|\\.)*)" "(?P<UserAgent>(?:[^"\\]|\\.)*)"'
)


def reply(columns, rows, in_order=False):
    """An answer as the program prints it: lines without an order stand in byte order."""
    lines = ["\t".join(map(printed, row)) for row in rows]
    if not in_order:
        lines.sort(key=lambda line: line.encode("utf-8"))
    return "\n".join([f"rows {len(lines)}", "\t".join(columns.split()), *lines]) + "\n"


def printed(value):
    if isinstance(value, datetime.datetime):
        return value.strftime("%Y-%m-%dT%H:%M:%S.%f") + "0Z"
    if isinstance(value, datetime.timedelta):
        return span(value // datetime.timedelta(microseconds=1) * 10)
    if isinstance(value, str):
        return value.replace("\\", "\\\\").replace("\t", "\\t").replace("\n", "\\n").replace("\r", "\\r")
    return "null" if value is None else str(value)


def span(ticks):
    """A number of ticks as a timespan of less than a day."""
    whole, fraction = divmod(ticks, TICKS)
    text = f"{whole // 3600:02}:{whole // 60 % 60:02}:{whole % 60:02}"
    return text + (f".{fraction:07}" if fraction else "")


class Span(int):
    """A timespan in ticks."""

    def __str__(self):
        return span(int(self))


def lines_of(name):
    return [line for line in (FOLDER / name).read_bytes().decode("utf-8").split("\n") if line]


def dashed(text):
    return "" if text == "-" else text


def request(line):
    """A line of the access log as a record."""
    found = LINE.fullmatch(line.rstrip("\r")).groupdict()
    parts = found["Request"].split(" ")
    method, path = (parts[0], parts[1]) if len(parts) == 3 else ("", dashed(found["Request"]))
    time = datetime.datetime.strptime(found["Time"], "%d/%b/%Y:%H:%M:%S %z").astimezone(datetime.timezone.utc)
    return {
        "Timestamp": time.replace(tzinfo=None),
        "Host": found["Host"],
        "User": dashed(found["User"]),
        "Method": method,
        "Path": path,
        "Status": int(found["Status"]),
        "Bytes": None if found["Bytes"] == "-" else int(found["Bytes"]),
        "Referer": dashed(found["Referer"]),
        "UserAgent": dashed(found["UserAgent"]),
    }


def grouped(records, key):
    groups = defaultdict(list)
    for record in records:
        groups[key(record)].append(record)
    return groups


def access():
    records = [request(line) for line in lines_of("access.log")]
    yield "done 1\n"
    yield f"ingested 2 rows {len(records)}\n"
    times = [record["Timestamp"] for record in records]
    yield reply("Requests:long First:datetime Last:datetime Unread:long", [(len(records), min(times), max(times), 0)])
    yield quarters(records)
    yield missing(records)
    yield sent(records)
    lines = Counter(tuple(record.values()) for record in records)
    twice = [count for count in lines.values() if count > 1]
    yield reply("Requests:long Lines:long", [(len(twice), sum(twice))])
    yield "done 3\n"
    yield "folded 3\n"
    failed = grouped((record for record in records if record["Status"] >= 500), lambda record: record["Path"])
    rows = [(path, len(group), max(record["Timestamp"] for record in group)) for path, group in failed.items()]
    yield reply("Path:string Failed:long Last:datetime", sorted(rows, key=lambda row: (-row[1], row[0].encode())), True)


def quarters(records):
    def quarter(record):
        time = record["Timestamp"]
        return time.replace(minute=time.minute // 15 * 15, second=0)

    groups = sorted(grouped(records, quarter).items())
    rows = [(time, len(group), sum(record["Status"] >= 500 for record in group)) for time, group in groups]
    return reply("Quarter:datetime Requests:long Failed:long", rows, True)


def missing(records):
    groups = grouped((record for record in records if record["Status"] == 404), lambda record: record["Host"])
    rows = [(host, len(group), len({record["Path"] for record in group})) for host, group in groups.items() if len(group) >= 5]
    return reply("Host:string Missing:long Paths:long", sorted(rows, key=lambda row: (-row[1], row[0])), True)


def sent(records):
    rows = []
    for agent, group in grouped(records, lambda record: record["UserAgent"]).items():
        sizes = [record["Bytes"] for record in group if record["Bytes"] is not None]
        rows.append((agent, len(group), len(group) - len(sizes), sum(sizes)))
    rows.sort(key=lambda row: (-row[3], row[0].encode()))
    return reply("UserAgent:string Requests:long Empty:long Sent:long", rows, True)


def moment(text):
    return datetime.datetime.strptime(text, "%Y-%m-%dT%H:%M:%S.%fZ")


def code(event):
    return event["responseStatus"]["code"]


def user(event):
    return event["user"]["username"]


def of_object(event, name):
    return event.get("objectRef", {}).get(name, "")


def audit():
    events = [json.loads(line) for line in lines_of("audit.jsonl")]
    yield "done 1\n"
    yield "done 2\n"
    yield "ingested 3 rows 3\n"
    yield "done 4\n"
    yield "done 5\n"
    yield f"ingested 6 rows {len(events)}\n"
    refused = Counter(user(event) for event in events if code(event) == 403)
    rows = sorted(refused.items(), key=lambda row: (-row[1], row[0].encode()))
    yield reply("User:string Refused:long", rows, True)
    yield secrets(events)
    yield verbs(events)
    twice = [count for count in Counter(event["auditID"] for event in events).values() if count > 1]
    yield reply("Events:long Lines:long", [(len(twice), sum(twice))])
    outside = Counter((source, user(event)) for event in events for source in event["sourceIPs"] if not source.startswith("10."))
    rows = sorted(((*pair, count) for pair, count in outside.items()), key=lambda row: (row[1].encode(), row[0]))
    yield reply("Source:string User:string Events:long", rows, True)
    yield denied(events)


def secrets(events):
    reads = Counter(
        (of_object(event, "namespace"), user(event))
        for event in events
        if event["verb"] in ("get", "list", "watch") and of_object(event, "resource") == "secrets" and code(event) < 400
    )
    rows = sorted(((*pair, count) for pair, count in reads.items()), key=lambda row: (row[0], row[1].encode()))
    return reply("Namespace:string User:string Reads:long", rows, True)


def verbs(events):
    rows = []
    for verb, group in grouped(events, lambda event: event["verb"]).items():
        spans = [moment(event["stageTimestamp"]) - moment(event["requestReceivedTimestamp"]) for event in group]
        ticks = [one // datetime.timedelta(microseconds=1) * 10 for one in spans]
        rows.append((verb, len(group), Span(sum(ticks) // len(ticks)), Span(max(ticks))))
    rows.sort(key=lambda row: (-int(row[2]), row[0]))
    return reply("verb:string Events:long Mean:timespan Slowest:timespan", rows, True)


def denied(events):
    teams = {"shop": "store", "billing": "money", "kube-system": "platform"}
    groups = grouped(
        (event for event in events if code(event) == 403),
        lambda event: (teams.get(of_object(event, "namespace"), ""), event["verb"]),
    )
    rows = [(*key, len(group), max(moment(event["requestReceivedTimestamp"]) for event in group)) for key, group in groups.items()]
    rows.sort(key=lambda row: (-row[2], row[0], row[1]))
    return reply("Team:string Verb:string Refused:long Last:datetime", rows, True)


def main(words):
    makers = {"access": access, "audit": audit}
    if len(words) != 1 or words[0] not in makers:
        sys.exit(__doc__)
    sys.stdout.write("".join(part + "\n" for part in makers[words[0]]()))


if __name__ == "__main__":
    main(sys.argv[1:])
