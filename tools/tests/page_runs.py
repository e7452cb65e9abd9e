"""Runs ./kq-page for a test, and speaks with it as a browser does, over plain sockets."""
import base64
import glob
import http.client
import json
import os
import signal
import socket
import struct
import subprocess
import sys
import tempfile
from pathlib import Path
from urllib.parse import urlsplit

TOP = os.path.dirname(os.path.dirname(os.path.dirname(os.path.realpath(__file__))))
sys.path[:0] = [os.path.join(TOP, "tools", "lib"), os.path.join(TOP, "tools", "page")]

import packages  # noqa: E402

KQ_PAGE = os.path.join(TOP, "kq-page")
STAND_IN = os.path.join(TOP, "tools", "tests", "page_program.py")
PROGRAM = os.environ.get("KQ_PROGRAM") or STAND_IN
ACCESS = os.path.join(TOP, "examples", "logs", "access.log")
PYTHONS = [sys.executable, "/usr/bin/python3"]


def python_with(*modules):
    """A Python that has the modules, or none."""
    wanted = "import " + ", ".join(modules)
    for python in PYTHONS:
        if os.access(python, os.X_OK) and subprocess.run([python, "-c", wanted], stdout=subprocess.DEVNULL, stderr=subprocess.DEVNULL).returncode == 0:
            return python
    return None


def why_not():
    """Why the page can't be served here, as a sentence; or none."""
    missing = ([] if python_with("aiohttp") else ["python3-aiohttp"]) + packages.missing()
    return f"the page isn't tested without {' '.join(missing)}" if missing else None


class Running:
    """./kq-page on files, until the block is left."""

    def __init__(self, *files, words=(), program=PROGRAM):
        self.folder = tempfile.TemporaryDirectory(prefix="page")
        environment = {**os.environ, "XDG_STATE_HOME": os.path.join(self.folder.name, "state")}
        self.told = open(os.path.join(self.folder.name, "told"), "w+")
        call = [KQ_PAGE, *(files or (ACCESS,)), "--program", program, *words]
        self.process = subprocess.Popen(call, stdout=subprocess.PIPE, stderr=self.told, text=True, env=environment, cwd=self.folder.name)
        self.address = self.process.stdout.readline().strip()
        if not self.address:
            self.close()
            raise AssertionError(f"kq-page printed no address: {self.text()}")
        self.host = urlsplit(self.address).netloc
        self.port = int(self.host.rpartition(":")[2])

    def text(self):
        self.told.seek(0)
        return self.told.read()

    def __enter__(self):
        return self

    def __exit__(self, *_):
        self.close()

    def close(self):
        if self.process.poll() is None:
            self.process.send_signal(signal.SIGTERM)
        try:
            self.status = self.process.wait(20)
        except subprocess.TimeoutExpired:
            self.process.kill()
            self.status = self.process.wait()
        self.process.stdout.close()
        self.told.close()
        self.folder.cleanup()

    def request(self, path, method="GET", headers=(), body=None, host=None):
        """One request with just these headers: its status, its headers and its body."""
        connection = http.client.HTTPConnection("127.0.0.1", self.port, timeout=20)
        try:
            connection.putrequest(method, path, skip_host=True, skip_accept_encoding=True)
            for name, value in [("Host", host or self.host), *headers]:
                connection.putheader(name, value)
            connection.endheaders(body)
            response = connection.getresponse()
            return response.status, dict(response.getheaders()), response.read()
        finally:
            connection.close()

    def enter(self):
        """The cookie and the key that the address gives."""
        _, headers, _ = self.request(self.address.removeprefix(f"http://{self.host}"))
        return headers["Set-Cookie"].split(";")[0], headers["Location"].partition("#key=")[2]

    def program_of(self):
        """The process of the program, which kq-page started."""
        for path in glob.glob(f"/proc/{self.process.pid}/task/*/children"):
            for child in Path(path).read_text().split():
                if b"load_files.py" not in Path("/proc", child, "cmdline").read_bytes():
                    return int(child)
        return None

    def socket(self, **headers):
        return Socket(self, headers)


class Refused(Exception):
    """The server didn't open a socket; the status is told."""


class Socket:
    """A socket as a page has it."""

    def __init__(self, running, headers):
        cookie, self.key = running.enter()
        given = {"Host": running.host, "Origin": f"http://{running.host}", "Cookie": cookie, **headers}
        self.connection = socket.create_connection(("127.0.0.1", running.port), timeout=60)
        lines = [f"{name}: {value}" for name, value in given.items() if value is not None]
        handshake = ["Upgrade: websocket", "Connection: Upgrade", "Sec-WebSocket-Version: 13", "Sec-WebSocket-Key: " + base64.b64encode(os.urandom(16)).decode()]
        self.connection.sendall("\r\n".join(["GET /socket HTTP/1.1", *lines, *handshake, "", ""]).encode("latin-1"))
        self.stream = self.connection.makefile("rb")
        status = int(self.stream.readline().split()[1])
        while self.stream.readline().strip():
            pass
        if status != 101:
            self.close()
            raise Refused(status)
        self.number = 0
        self.news = []

    def __enter__(self):
        return self

    def __exit__(self, *_):
        self.close()

    def close(self):
        self.stream.close()
        self.connection.close()

    def put(self, data):
        """One message. What a page sends is masked."""
        data = data.encode()
        size = struct.pack(">BH", 0x80 | 126, len(data)) if len(data) < 65536 else struct.pack(">BQ", 0x80 | 127, len(data))
        self.connection.sendall(b"\x81" + size + bytes(4) + data)

    def get(self):
        """The next message as values, or the number that the server closes the socket with."""
        while True:
            first, size = self.stream.read(2)
            if size == 126:
                size = struct.unpack(">H", self.stream.read(2))[0]
            elif size == 127:
                size = struct.unpack(">Q", self.stream.read(8))[0]
            data = self.stream.read(size)
            if first & 15 == 8:
                return struct.unpack(">H", data[:2])[0]
            if first & 15 == 1:
                return json.loads(data)

    def hello(self):
        self.put(json.dumps({"key": self.key}))
        return self.get()

    def begin(self, call, **given):
        self.number += 1
        self.put(json.dumps({"number": self.number, "call": call, "with": given}))
        return self.number

    def result(self, number):
        """The result of a call. News that comes before it is kept."""
        while True:
            message = self.get()
            if not isinstance(message, dict):
                raise AssertionError(f"the socket was closed with {message}")
            if message.get("number") == number:
                return message
            self.news.append(message)

    def call(self, call, **given):
        message = self.result(self.begin(call, **given))
        if "error" in message:
            raise ValueError(message["error"])
        return message["result"]

    def ask(self, text, **given):
        return self.call("ask", text=text, asked=self.number + 1, **given)

    def until(self, fits):
        """Waits for news, and gives it."""
        while True:
            found = self.news.pop(0) if self.news else self.get()
            if isinstance(found, int):
                raise AssertionError(f"the socket was closed with {found}")
            if "event" in found and fits(found):
                return found

    def loaded(self):
        """Enters, and waits until all is loaded."""
        found = self.hello()
        return found if found["loading"]["done"] else self.until(lambda news: news["event"] == "state" and news["loading"]["done"])
