"""Showing replies: each as a table, a chart, or a refusal with its reason."""

import io
import os
import shutil
import sys

import charts
import refusals
import replies
import tables
from widths import is_terminal, visible

RED, BOLD_RED, DIM = "31", "1;31", "2"
# A terminal shows no more rows than this unless it is asked to: nobody reads them, and what follows would be out of sight.
ROWS_ON_A_TERMINAL = 1000


class Look:
    """How replies are shown, and where. `is_whole` is lost where a chart couldn't be drawn."""

    def __init__(self, out, *, colour=None, limit=None, places=None, chart=None, told=None):
        self.out = out
        self.is_terminal = is_terminal(out)
        self.colour = self.is_terminal and not os.environ.get("NO_COLOR") if colour is None else colour
        self.limit = limit if limit is not None else ROWS_ON_A_TERMINAL if self.is_terminal else None
        self.places = places or shutil.get_terminal_size().columns
        self.chart = chart
        self.told = told or sys.stderr
        self.is_whole = True
        self.has_rich = self.colour and has("rich", self.told, "tables have no colours")

    def reply(self, reply, command=None):
        """Shows one reply, with an empty line behind it."""
        if reply.is_refusal:
            self.refusal(reply, command)
        elif not reply.is_answer:
            self.out.write(visible(reply.first) + "\n")
        elif self.chart is None or not self.drawn(reply):
            self.table(reply)
        self.out.write("\n")
        self.out.flush()

    def table(self, reply):
        if self.has_rich:
            tables.write_rich(reply, self.out, self.limit, self.places)
        else:
            tables.write_plain(reply, self.out, self.limit, self.places if self.is_terminal else None)

    def refusal(self, reply, command):
        styles = {"line": "", "caret": BOLD_RED, "sentence": DIM}
        self.out.write(self.paint(visible(reply.first), BOLD_RED) + "\n")
        for style, text in refusals.explain(reply.first, command):
            self.out.write(self.paint(text, styles[style]) + "\n")

    def drawn(self, reply):
        """Draws an answer, or says why it can't be drawn."""
        try:
            chart = charts.make(reply, **self.chart)
        except charts.ChartError as why:
            self.out.write(f"no chart: {visible(str(why))}\n")
            self.is_whole = False
            return False
        self.out.write("\n".join(charts.draw(chart, self.places, colour=self.colour)) + "\n")
        return True

    def paint(self, text, colour):
        return f"\x1b[{colour}m{text}\x1b[0m" if self.colour and colour else text


def has(module, told, without):
    """Whether a module is there; else one line says what is missed and what to install, once."""
    try:
        __import__(module)
    except ImportError:
        if module not in has.told:
            print(f"look: {without} without {module}: apt-get install python3-{module}", file=told)
            has.told.add(module)
        return False
    return True


has.told = set()


def show(reply_text, out, *, script=None, colour=None, limit=None, places=None, chart=None, told=None):
    """Shows the replies of a text on `out`, and gives them as a list of replies.Reply.

    script   the commands that they answer, as bytes or text: with it a refusal points into its command
    colour   whether there are colours; where it isn't said, `out` decides by being a terminal
    limit    how many rows of an answer are shown at most; where it isn't said, 1000 on a terminal and else all
    places   how wide the terminal is
    chart    draws answers in place of tables: the arguments of charts.make, as {"kind": "bar", "x": "Host"}
    told     where to say that a module is missing; standard error where it isn't said
    """
    text = script.encode("utf-8", "surrogateescape") if isinstance(script, str) else script or b""
    commands = replies.commands(io.BytesIO(text))
    look = Look(out, colour=colour, limit=limit, places=places, chart=chart, told=told)
    shown = replies.read(reply_text)
    for reply in shown:
        look.reply(reply, next(commands, None))
    return shown
