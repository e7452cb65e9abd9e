"""A session at a terminal: questions and words are typed, and each is answered at once."""
import os
import re
import sys

import charts
import memory
import tables
import words
from history import History, place
from interrupts import Interrupts
from names import column_name, counted, table_name
from replies import read, unescape
from sessions import Ended, is_comment
from widths import visible
from words import Word

EXPORT = re.compile(r"\s*(//[^\n]*\n\s*)*#\s*export\b")


def typed(history, take, interrupts):
    """The questions that are typed, as lists of lines. Words are given to `take`, which says whether to go on."""
    open_lines = []
    while True:
        try:
            with interrupts.allowed():
                lines = input(" .. " if open_lines else "kq> ").split("\n")
        except KeyboardInterrupt:
            print()
            open_lines = []
            continue
        except EOFError:
            print()
            break
        if not open_lines and len(lines) == 1 and is_word(lines[0]):
            history.add(lines[0].strip())
            if not take(lines[0]):
                return
            continue
        # What is pasted, or brought back, has several lines.
        for line in lines:
            if line.strip():
                open_lines.append(line)
            elif open_lines:
                history.add("\n".join(open_lines))
                yield open_lines
                open_lines = []
    if open_lines:
        history.add("\n".join(open_lines))
        yield open_lines


def is_word(line):
    try:
        return words.read(line) is not None
    except words.Unknown:
        return True


def confirmed(text, say):
    """Whether whoever sits there says yes."""
    say(text)
    try:
        return input("[y/N] ").strip().lower() in ("y", "yes")
    except (EOFError, KeyboardInterrupt):
        print()
        return False


class Console:
    """Questions of a terminal, and the words beside them.

    session   asks the program, and can start it again; none where the questions are gathered for the end
    report    shows the replies"""

    def __init__(self, session, report, say, formulas=False):
        self.session = session
        self.report = report
        self.say = say
        self.formulas = formulas
        self.history = History(place())
        self.interrupts = Interrupts()

    def questions(self):
        """The questions as they are typed. Until they end, an interrupt ends nothing but what guarded() calls."""
        with self.interrupts:
            yield from typed(self.history, self.taken, self.interrupts)

    def run(self):
        for block in self.questions():
            if not is_comment(block):
                self.guarded(self.ask, block)

    def guarded(self, call, *given):
        """An interrupt ends what is shown, and nothing else."""
        try:
            with self.interrupts.allowed():
                call(*given)
        except KeyboardInterrupt:
            print()
            self.say("the rest isn't shown")
        sys.stdout.flush()

    def ask(self, block):
        text = "\n".join(block)
        self.collect()
        session = self.free_for(text)
        if session is None:
            return
        try:
            reply = session.ask(text, self.slow)
        except KeyboardInterrupt:
            print()
            self.left()
            return
        except Ended as fault:
            self.say(str(fault))
            if not self.reloaded("The tables are gone with it."):
                raise
            return
        self.session.kept.command(text, reply)
        self.report.reply(reply, block)
        if reply.startswith("refused Memory"):
            self.short_of_memory()

    def free_for(self, text):
        """A session that can be asked; none where all are taken and whoever sits there doesn't want to load again."""
        program = self.session.program
        is_export = EXPORT.match(text) is not None
        session = program.free() if not is_export else program.first if program.first.is_free else None
        if session is None:
            taken = "exports run in the first session, which is" if is_export else f"{counted(len(program.sessions), 'session')} of the program are"
            if self.reloaded(f"{taken} taken by questions that were left. They free it when they have ended."):
                return self.session.program.first
        return session

    def slow(self):
        self.say("still running; Ctrl-C leaves it running and takes the next question")

    def left(self):
        program = self.session.program
        taken = f"{len(program.running())} of {counted(len(program.sessions), 'session')} taken"
        self.say(f"left running, and its answer is dropped; {taken}{self.holds()}")

    def holds(self):
        """What the program holds of its memory, as the end of a sentence."""
        taken, most = memory.taken(self.session.program.process.pid), self.session.most
        if taken is None:
            return ""
        return f". The program holds {memory.told(taken)}" + (f" of {memory.told(most)}" if most else "")

    def short_of_memory(self):
        running = self.session.program.running()
        most = f" It may take {memory.told(self.session.most)}, which --memory changes." if self.session.most else ""
        others = f" What was left still runs, and takes some of it: {counted(len(running), 'question')}." if running else ""
        self.reloaded(f"the program was refused memory.{most}{others}")

    def reloaded(self, why):
        """Offers to end the program and load again, and says whether that was done."""
        if not self.session.kept.is_there:
            self.say(why)
            return False
        if not confirmed(f"{why} End the program, and load the same into a new one?", self.say):
            return False
        self.session.restart()
        return True

    def collect(self):
        """Takes in what became of commands that were left: a late answer is dropped, a late change is kept and told."""
        for session in self.session.program.sessions:
            for text, reply in session.late():
                if reply and not reply.startswith("rows "):
                    self.session.kept.command(text, reply)
                    self.say(f"what was left is answered: {reply}")

    def taken(self, line):
        """Does what a word says, and gives whether to go on."""
        try:
            typed_word = words.read(line)
            if typed_word.word is Word.QUIT:
                return False
            if typed_word.word is Word.HELP:
                print(words.help_text())
            elif self.session is None:
                self.say(f"{typed_word.word.text} needs the proved program")
            else:
                self.guarded(self.does, typed_word)
        except (words.Unknown, OSError) as fault:
            self.say(str(fault))
        return True

    def does(self, typed_word):
        word = typed_word.word
        self.collect()
        if word is Word.TABLES:
            self.list_tables()
        elif word is Word.RUNNING:
            self.running()
        elif word is Word.ROWS:
            self.rows(typed_word.others)
        elif word is Word.RELOAD:
            if self.session.kept.is_there:
                self.session.restart()
            else:
                self.say("what was loaded wasn't kept")
        elif self.report.last is None:
            self.say("there is no answer yet")
        elif word is Word.CHART:
            self.chart(typed_word)
        else:
            self.write(word.text[1:], typed_word.others)

    def rows(self, others):
        if not others or not others[0].isdigit():
            raise words.Unknown("\\rows takes N, a number")
        self.report.limit = int(others[0]) or sys.maxsize

    def chart(self, typed_word):
        named = typed_word.named
        if typed_word.others and typed_word.others[0] not in charts.KINDS:
            raise words.Unknown(f"there is no {typed_word.others[0]} chart; there are {', '.join(charts.KINDS)}")
        chart = {"kind": (typed_word.others or [None])[0], "y": named.get("y", [])}
        chart.update((name, named[name][-1]) for name in ("x", "by", "title") if name in named)
        self.report.draw(chart)

    def write(self, form, files):
        """Writes the last answer, into a file that isn't there yet or to the terminal."""
        if not files:
            tables.write(form, self.report.last, sys.stdout, self.formulas)
            return
        path = os.path.expanduser(files[0])
        try:
            file = open(path, "x", encoding="utf-8", errors="surrogateescape", newline="")
        except FileExistsError:
            raise words.Unknown(f"{path} is there already, and isn't written over") from None
        try:
            with file:
                tables.write(form, self.report.last, file, self.formulas)
        except (KeyboardInterrupt, OSError):
            # Nobody is to take a part for the whole.
            os.unlink(path)
            raise
        self.say(f"{counted(len(self.report.last.lines), 'row')} written into {path}")

    def running(self):
        for text in self.session.program.running():
            print(visible(" ".join(text.split())))
        self.say(f"{counted(len(self.session.program.running()), 'question')} running{self.holds()}")

    def answer(self, text):
        """The rows of an answer to a question of our own, or none where no session is free or it is refused."""
        session = self.session.program.free()
        if session is None:
            self.say("all sessions are taken by questions that were left")
            return None
        found = read(session.ask(text) + "\n")[0]
        return found if found.is_answer else None

    def list_tables(self):
        """Lists what .show journal names: tables with their rows, and views."""
        journal = self.answer(".show journal")
        if journal is None:
            return
        at = {column.name: place for place, column in enumerate(journal.columns)}
        events = [(row[at["Kind"]], unescape(row[at["Entity"]])) for row in sorted(journal.rows(), key=lambda row: int(row[at["Place"]]))]
        for kind, name in events:
            if kind in ("CreateTable", "CreateView"):
                self.table(name, kind == "CreateView")

    def table(self, name, is_view):
        source = table_name(name)
        head = self.answer(f"{source} | take 0")
        if head is None:
            return
        count = None if is_view else self.answer(f"{source} | count")
        rows = "a view" if count is None else counted(int(count.lines[0]), "row")
        columns = ", ".join(f"{column_name(column.name)}:{column.type}" for column in head.columns)
        print(visible(f"{source} ({columns})  {rows}"))
