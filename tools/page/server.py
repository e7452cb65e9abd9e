"""The server of the page: on 127.0.0.1 alone, at a free port."""
import asyncio
import json
import secrets
import signal
import socket
import sys
import tempfile

from aiohttp import web

import guard
import language
import packages
import page_history
import pages
import tables
from engine import Engine
from loads import Loads
from page_catalogue import Catalogue
from sessions import Ended

STATE_EACH = 0.15
CATALOGUE_EACH = 1.5
PIECE = 2**18
MOST_TICKETS = 20


class Service:
    """What all pages share: the program, its loading, the catalogue and the history."""

    def __init__(self, options, words, program, door):
        self.options, self.words, self.program, self.guard = options, words, program, door
        self.pages = set()
        self.tickets = {}
        self.history = page_history.History(page_history.place())
        self.loop = asyncio.get_running_loop()
        self.news, self.stale = asyncio.Event(), asyncio.Event()
        self.language = language.words()
        self.run_program()
        self.tasks = [asyncio.create_task(self.tell_news()), asyncio.create_task(self.keep_catalogue())]

    def run_program(self):
        self.engine = Engine([self.program], self.changed)
        self.catalogue = Catalogue(self.engine)
        self.loads = Loads(self.options, self.words, self.engine, self.loaded, self.catalogue.note)
        self.loads.start()

    def changed(self):
        """There is news. Any thread may say so."""
        self.loop.call_soon_threadsafe(self.news.set)

    def loaded(self):
        self.changed()
        self.loop.call_soon_threadsafe(self.stale.set)

    def again(self):
        """Runs the program anew and loads the files, where it has ended."""
        if self.engine.ended is None:
            return False
        self.run_program()
        self.loaded()
        return True

    def guard_is_met(self, message):
        try:
            key = json.loads(message)["key"]
        except (ValueError, TypeError, KeyError):
            return False
        return isinstance(key, str) and guard.is_same(key, self.guard.key)

    def state(self):
        return {"engine": self.engine.state(), "loading": self.loads.state()}

    def hello(self):
        return {"into": self.options.into, "language": self.language, "catalogue": self.catalogue.told, **self.state()}

    def answered(self, block, text):
        """A question of a page was answered."""
        first = text.partition("\n")[0]
        if len(block) <= pages.LONGEST_IN_HISTORY:
            self.history.add(block, first)
        self.catalogue.note(block, first)
        if first.split(" ")[0] in pages.CHANGES:
            self.stale.set()

    async def tell(self, what):
        await asyncio.gather(*(asyncio.wait_for(page.tell(what), 10) for page in list(self.pages)), return_exceptions=True)

    async def tell_news(self):
        while True:
            await self.news.wait()
            self.news.clear()
            await self.tell({"event": "state", **self.state()})
            await asyncio.sleep(STATE_EACH)

    async def keep_catalogue(self):
        while True:
            await self.stale.wait()
            self.stale.clear()
            try:
                if await asyncio.to_thread(self.catalogue.read):
                    await self.tell({"event": "catalogue", "catalogue": self.catalogue.told})
            except Ended:
                pass
            await asyncio.sleep(CATALOGUE_EACH)

    def ticket(self, answer, arrangement, form):
        """An address that gives an answer as a file, once."""
        while len(self.tickets) >= MOST_TICKETS:
            del self.tickets[next(iter(self.tickets))]
        ticket = secrets.token_urlsafe(24)
        self.tickets[ticket] = (answer, arrangement, form)
        return f"/saved/{ticket}"

    async def saved(self, request):
        found = self.tickets.pop(request.match_info["ticket"], None)
        if found is None:
            raise web.HTTPNotFound(text="This file was saved already.\n")
        answer, arrangement, form = found
        with tempfile.TemporaryFile("w+", encoding="utf-8", errors="surrogateescape", newline="") as file:
            await asyncio.to_thread(lambda: tables.WRITERS[form](answer.part(arrangement), file))
            file.flush()
            return await self.stream(request, file.buffer, form)

    @staticmethod
    async def stream(request, file, form):
        kind = {"csv": "text/csv", "json": "application/json"}[form]
        headers = {"Content-Type": f"{kind}; charset=utf-8", "Content-Disposition": f'attachment; filename="answer.{form}"'}
        response = web.StreamResponse(headers=headers)
        await response.prepare(request)
        file.seek(0)
        while piece := await asyncio.to_thread(file.read, PIECE):
            await response.write(piece)
        await response.write_eof()
        return response

    async def close(self):
        for task in self.tasks:
            task.cancel()
        for page in list(self.pages):
            await page.socket.close(code=1001, message=b"kq-page ended")
        self.loads.close_soon()
        await asyncio.to_thread(self.engine.close)
        await asyncio.to_thread(self.loads.thread.join, 10)


def app_of(service, door):
    """The addresses that are served: the page's files, a socket, and answers as files."""
    app = web.Application(middlewares=[door.middleware], client_max_size=guard.LONGEST_BODY)
    app.on_response_prepare.append(door.add_headers)
    for address, (path, kind) in packages.served().items():
        app.router.add_get(address, file_handler(path, kind), allow_head=False)
    app.router.add_get("/socket", lambda request: pages.open_socket(service, request), allow_head=False)
    app.router.add_get("/saved/{ticket}", service.saved, allow_head=False)
    return app


def file_handler(path, kind):
    with open(path, "rb") as file:
        content = file.read()

    async def handler(_):
        return web.Response(body=content, content_type=kind, charset="utf-8")

    return handler


async def serve(options, words, program):
    """Serves until a signal to end comes."""
    place = socket.create_server(("127.0.0.1", 0), backlog=128)
    door = guard.Guard(place.getsockname()[1])
    ended = asyncio.Event()
    for number in (signal.SIGINT, signal.SIGTERM, signal.SIGHUP):
        asyncio.get_running_loop().add_signal_handler(number, ended.set)
    service = Service(options, words, program, door)
    runner = web.AppRunner(app_of(service, door), access_log=None)
    try:
        await runner.setup()
        await web.SockSite(runner, place, shutdown_timeout=1).start()
        print(door.address, flush=True)
        print("kq-page: open this address in a browser on this machine; Ctrl-C ends the page, the program and its tables", file=sys.stderr, flush=True)
        await ended.wait()
    finally:
        await service.close()
        await runner.cleanup()
    return 0
