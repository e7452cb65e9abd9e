"""The pages that are open: each has a socket, over which it calls what stands here and is told the news."""
import asyncio
import itertools
import json
import os
import time

from aiohttp import WSMsgType, web

import asks
import charts
from answers import Answer, Arrangement
from asks import BadCall
from filters import FilterError
from replies import BadReply
from sessions import Ended
from widths import visible

MOST_ANSWERS = 12
MOST_ROWS = 4_000_000
MOST_CALLS = 64
LONGEST_IN_HISTORY = 65536
# Replies of commands that change what the side of the page shows.
CHANGES = ("done", "ingested", "folded", "merged")


def whole(value, name):
    if not isinstance(value, int) or isinstance(value, bool) or value < 0:
        raise BadCall(f"{name} is no whole number")
    return value


class Page:
    """One open page."""

    def __init__(self, service, socket):
        self.service, self.socket = service, socket
        self.answers = {}
        self.numbers = itertools.count(1)
        self.asked = {}
        self.calls = set()

    async def serve(self):
        """Takes calls until the socket closes. The first message has the key, without which nothing is answered."""
        first = await self.socket.receive(timeout=10)
        if first.type is not WSMsgType.TEXT or not self.service.guard_is_met(first.data):
            await self.socket.close(code=4403, message=b"the key is another one")
            return
        await self.tell({"event": "hello", **self.service.hello()})
        self.service.pages.add(self)
        try:
            async for message in self.socket:
                if message.type is not WSMsgType.TEXT:
                    break
                self.begin(message.data)
        finally:
            self.service.pages.discard(self)
            for task in list(self.calls):
                task.cancel()

    def begin(self, data):
        task = asyncio.create_task(self.call(data))
        self.calls.add(task)
        task.add_done_callback(self.calls.discard)

    async def tell(self, what):
        try:
            await self.socket.send_str(json.dumps(what))
        except ConnectionResetError:
            pass

    async def call(self, data):
        """One call: an object with its number, the name of what is called, and what it takes."""
        number = None
        try:
            message = json.loads(data)
            if not isinstance(message, dict) or not isinstance(message.get("with", {}), dict):
                raise BadCall("a call is an object")
            number = message.get("number")
            called = self.CALLS.get(message.get("call"))
            if called is None or len(self.calls) > MOST_CALLS:
                raise BadCall("there is no such call" if called is None else "too many calls at once")
            found = await called(self, **message.get("with", {}))
            await self.tell({"number": number, "result": found})
        except (ValueError, TypeError, charts.ChartError, BadReply) as fault:
            known = isinstance(fault, (BadCall, FilterError, charts.ChartError, BadReply)) or type(fault) is ValueError
            await self.tell({"number": number, "error": visible(str(fault)) if known else "the call isn't of the form that it has"})

    async def ask(self, text, asked, confirmed=False):
        """Asks one block. `asked` is the page's number for it, by which it is left."""
        block = "\n".join(asks.one_block(text))
        if asks.sessions.is_comment(block.split("\n")):
            return {"kind": "comment"}
        if asks.writes_files(block) and confirmed is not True:
            return {"kind": "confirm", "folder": visible(os.getcwd())}
        began = time.monotonic()
        command = self.service.engine.ask(block)
        left = self.asked[asked] = asyncio.get_running_loop().create_future()
        try:
            found = await self.reply_to(command, left, block)
        finally:
            del self.asked[asked]
            command.reply.cancel()
        return {**found, "seconds": round(time.monotonic() - began, 3)}

    async def reply_to(self, command, left, block):
        coming = asyncio.wrap_future(command.reply)
        coming.add_done_callback(lambda it: it.cancelled() or it.exception())
        await asyncio.wait({coming, left}, return_when=asyncio.FIRST_COMPLETED)
        if not coming.done():
            # One that waits is taken out of the line. One that runs can't be stopped; nobody takes its answer.
            return {"kind": "left", "runs": not command.reply.cancel()}
        try:
            text = coming.result()
        except Ended as why:
            return {"kind": "ended", "first": str(why)}
        found, reply = await asyncio.to_thread(asks.reply_of, text, block)
        self.service.answered(block, text)
        return found if reply is None else {**found, **await asyncio.to_thread(self.hold, reply)}

    def hold(self, reply):
        """Keeps an answer for the page, and lets go of its oldest ones where these have too many rows."""
        answer, number = Answer(reply), next(self.numbers)
        self.answers[number] = answer
        while len(self.answers) > 1 and (len(self.answers) > MOST_ANSWERS or sum(len(it.reply.lines) for it in self.answers.values()) > MOST_ROWS):
            del self.answers[min(self.answers)]
        return {"answer": number, "columns": answer.heads(), "rows": len(reply.lines), "chart": answer.kind_of_chart()}

    async def leave(self, asked):
        future = self.asked.get(asked)
        if future is not None and not future.done():
            future.set_result(None)

    def held(self, number):
        answer = self.answers.get(number)
        if answer is None:
            raise BadCall("this answer isn't kept any more; ask again")
        return answer

    @staticmethod
    def arrangement(answer, given):
        """How the page arranges the rows: {sort, descending, filters}, with columns by their places."""
        if not isinstance(given, dict):
            raise BadCall("an arrangement is an object")
        count, sort, filters = len(answer.kinds), given.get("sort"), given.get("filters") or {}
        places = [sort] if sort is not None else []
        pairs = tuple((int(place), text) for place, text in filters.items() if text)
        if any(whole(place, "a column") >= count for place in places + [place for place, _ in pairs]):
            raise BadCall("the answer has no such column")
        if not all(isinstance(text, str) for _, text in pairs):
            raise BadCall("a filter is a text")
        return Arrangement(sort, given.get("descending") is True, pairs)

    async def rows(self, answer, arrangement, first, count):
        held = self.held(answer)
        return await asyncio.to_thread(held.window, self.arrangement(held, arrangement), whole(first, "first"), whole(count, "count"))

    async def cell(self, answer, row, column):
        held = self.held(answer)
        if whole(row, "row") >= len(held.reply.lines) or whole(column, "column") >= len(held.kinds):
            raise BadCall("the answer has no such cell")
        return await asyncio.to_thread(held.cell, row, column)

    async def copy(self, answer, arrangement, form, first, count, columns):
        held = self.held(answer)
        if form not in ("csv", "json", "cells") or any(whole(at, "a column") >= len(held.kinds) for at in columns):
            raise BadCall("cells are copied as csv, json or cells, of columns that there are")
        place = self.arrangement(held, arrangement)
        return {"text": await asyncio.to_thread(held.copied, place, form, whole(first, "first"), whole(count, "count"), columns)}

    async def save(self, answer, arrangement, form):
        held = self.held(answer)
        if form not in ("csv", "json"):
            raise BadCall("answers are saved as csv or json")
        return {"path": self.service.ticket(held, self.arrangement(held, arrangement), form)}

    async def chart(self, answer, arrangement, kind, x=None, y=(), by=None):
        held = self.held(answer)
        if kind not in charts.KINDS:
            raise BadCall(f"charts are {', '.join(charts.KINDS)}")
        if any(at is not None and whole(at, "a column") >= len(held.kinds) for at in (x, by, *y)):
            raise BadCall("the answer has no such column")
        x, by, *y = (None if at is None else held.reply.columns[at].name for at in (x, by, *y))
        return await asyncio.to_thread(held.drawn, self.arrangement(held, arrangement), kind, x, y, by)

    async def drop(self, answer):
        self.answers.pop(answer, None)

    async def history(self):
        return self.service.history.latest()

    async def again(self):
        return {"begun": self.service.again()}

    CALLS = {call.__name__: call for call in (ask, leave, rows, cell, copy, save, chart, drop, history, again)}


async def open_socket(service, request):
    socket = web.WebSocketResponse(max_msg_size=2**24, heartbeat=30, compress=False)
    await socket.prepare(request)
    try:
        await Page(service, socket).serve()
    except asyncio.TimeoutError:
        await socket.close()
    return socket
