#!/usr/bin/env python3
"""How many lines tools/load reads in a second of one processor, and its memory: bench/load.py [LINES]

Makes a file of each format, of 1,000,000 lines where nothing else is said, loads each three times, and prints the least. Processor
seconds are those of user and system, with the start of Python and the finding of types."""
import json
import os
import subprocess
import sys
import tempfile

LOAD = os.path.join(os.path.dirname(os.path.realpath(__file__)), "..", "tools", "load")
MEASURE = """
import resource, runpy, sys
sys.argv = sys.argv[1:]
try:
    runpy.run_path(sys.argv[0], run_name="__main__")
except SystemExit:
    pass
used = resource.getrusage(resource.RUSAGE_SELF)
peak = next(line for line in open("/proc/self/status") if line.startswith("VmHWM")).split()[1]
print(used.ru_utime + used.ru_stime, int(peak) / 1024, file=sys.stderr)
"""


def moment(i):
    return f"2024-03-{1 + i // 86400 % 28:02}T{i // 3600 % 24:02}:{i // 60 % 60:02}:{i % 60:02}"


def csv_line(i):
    return f"{moment(i)}.{i % 1000:03}Z,web-{i % 8},GET,/orders/{i % 5000},{200 if i % 7 else 503},{i % 900}ms,{i * 7 % 100000},user{i % 300}\n"


def quoted_line(i):
    return f'{moment(i)}.{i % 1000:03}Z,device-{i % 8},{"info" if i % 5 else "error"},"{{""temp"":{i % 40},""msg"":""reading {i % 1000}""}}"\n'


def access_line(i):
    when = f"{1 + i // 86400 % 28:02}/Mar/2024:{i // 3600 % 24:02}:{i // 60 % 60:02}:{i % 60:02} +0100"
    agent = "Mozilla/5.0 (X11; Linux x86_64) AppleWebKit/537.36"
    return f'10.0.{i % 256}.{i % 200} - - [{when}] "GET /orders/{i % 5000}?q={i} HTTP/1.1" {200 if i % 7 else 503} {i * 7 % 100000} "https://example.com/" "{agent}"\n'


def json_line(i):
    members = {"ts": moment(i) + "Z", "level": "info", "msg": f"reading {i}", "device": f"d{i % 9}", "n": i, "ctx": {"user": "ann", "ids": [i, i + 1], "ok": True}}
    return json.dumps(members) + "\n"


def syslog_line(i):
    return f"<34>Mar {1 + i // 86400 % 28:2} {i // 3600 % 24:02}:{i // 60 % 60:02}:{i % 60:02} host{i % 9} sshd[{i % 9999}]: Accepted publickey for ann from 10.0.0.{i % 256}\n"


KINDS = [
    ("CSV, 8 columns", "a.csv", "Timestamp,Host,Method,Path,Status,Took,Bytes,User\n", csv_line),
    ("CSV, 4 columns, one of quoted JSON", "b.csv", "Timestamp,Device,Level,Payload\n", quoted_line),
    ("Combined Log Format", "access.log", "", access_line),
    ("syslog, RFC 3164", "syslog", "", syslog_line),
    ("JSON lines, 6 members", "a.json", "", json_line),
]


def measured(path):
    words = [sys.executable, "-c", MEASURE, LOAD, path, "--into", "T"]
    told = subprocess.run(words, stdout=subprocess.DEVNULL, stderr=subprocess.PIPE, check=True).stderr
    return tuple(map(float, told.split()[-2:]))


def main():
    lines = int(sys.argv[1]) if len(sys.argv) > 1 else 1_000_000
    print(f"{'format':<36} {'seconds':>8} {'lines/s':>9} {'peak MiB':>9}")
    with tempfile.TemporaryDirectory() as folder:
        for what, name, heading, line in KINDS:
            path = os.path.join(folder, name)
            with open(path, "w") as file:
                file.write(heading)
                file.writelines(map(line, range(lines)))
            seconds, peak = min(measured(path) for _ in range(3))
            print(f"{what:<36} {seconds:>8.2f} {lines / seconds:>9,.0f} {peak:>9.1f}")
            os.remove(path)


if __name__ == "__main__":
    main()
