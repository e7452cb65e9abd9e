"""Loads files: finds the columns of their records, and writes the script that puts the rows into a table."""
import gc
import time

import csvs
import names
import plans
import scripts
from inputs import LONGEST
from outlets import outlet
from problems import Problems, Stopped
from sources import Source


class Loading:
    """One call: files into a table."""

    def __init__(self, options, out, say, progress):
        self.options = options
        self.out = outlet(out)
        self.say = say
        self.progress = progress
        self.problems = Problems(options.choices, options.rejects, options.going_on)
        self.rows = 0

    @property
    def sent(self):
        """What was written so far of commands that have a reply."""
        return self.script.sent if hasattr(self, "script") else []

    def run(self):
        """Reads the files, and writes the script."""
        # Nothing here makes cycles, and the collector would look through all cells of a chunk again and again.
        gc.disable()
        sources = []
        try:
            self.run_on(sources)
        finally:
            gc.enable()
            for source in sources:
                source.input.close()

    def run_on(self, sources):
        for path in self.options.files:
            self.begin_rejects(path, b"")
            sources.append(Source(path, self.options, self.problems))
        columns = self.columns(sources)
        if columns is None:
            self.read_through(sources)
            raise Stopped("no file has a record, so there are no columns to find")
        if self.options.print_schema:
            self.out.write(schema(self.options.into, columns).encode())
            return
        self.plan = plans.Plan(columns, self.options)
        self.script = scripts.Script(self.out, self.options.into, columns, self.options.batch)
        if self.options.table:
            self.script.create()
        for source in sources:
            self.load(source)

    def read_through(self, sources):
        """Meets what keeps the files from having a record."""
        for source in sources:
            source.open()
            for _ in source.tables(self.problems, source.chunks()):
                pass

    def columns(self, sources):
        """The columns of the table, or none where no file shows any."""
        fields, fixed, evidence = {}, {}, {}
        for source in sources:
            if source.is_empty:
                self.say(f"{source.path}: is empty: it has no records")
            source.evidence(evidence)
            if not source.is_empty or source.fields:
                self.agree(fields, source)
            fixed.update(getattr(source.reader, "types", {}))
            for note in source.notes:
                self.say(f"{source.path}: {note}")
        for name in fields:
            evidence.setdefault(name, plans.ObjectEvidence(self.options.moments))
        if not fields:
            return None
        columns, notes = plans.planned(list(fields), evidence, fixed, self.options)
        for note in notes:
            self.say(note)
        return columns

    def agree(self, fields, source):
        """Takes the fields of a file. One without names has those of the first file, where it has as many."""
        nameless = isinstance(source.reader, csvs.Csv) and not source.heading_text and not self.options.names
        if fields and nameless:
            if len(source.fields) != len(fields):
                raise Stopped(f"{source.path}: has {len(source.fields)} columns and no names, and the files before it have {len(fields)}")
            source.fields = list(fields)
        fields.update(dict.fromkeys(source.fields))

    def load(self, source):
        """Writes the rows of one file."""
        began = time.monotonic()
        source.open()
        self.script.begin(source.path, source.input.name, source.input.owner)
        self.begin_rejects(source.path, source.heading_text)
        self.progress.begin(source.input)
        for table, places in source.tables(self.problems, source.chunks()):
            if table.count:
                self.give(table, places)
            self.progress.advance(source.input.taken, self.script.given + len(self.script.rows))
        self.script.close()
        source.input.close()
        self.progress.end()
        self.tell(source, time.monotonic() - began)

    def begin_rejects(self, path, heading):
        """Whatever is rejected from here on is of this file."""
        if self.options.rejects is not None:
            self.options.rejects.begin(path, heading)

    def give(self, table, places):
        """Gives the records of a table as rows."""
        refused = self.extra(table, places)
        rows, rejected = self.plan.rows(table, self.problems, places.at)
        if refused:
            kept = (place for place in range(table.count) if place not in rejected)
            rows = [row for place, row in zip(kept, rows) if place not in refused]
            rejected |= refused
        if rows and max(map(len, rows)) >= self.script.longest:
            rows = self.short_enough(rows, rejected, table, places)
        for place in sorted(rejected):
            self.problems.reject(places.raw(place))
        self.script.add(rows)

    def short_enough(self, rows, rejected, table, places):
        """The rows, those aside that are too long for a command."""
        kept, found = [place for place in range(table.count) if place not in rejected], []
        for place, row in zip(kept, rows):
            if len(row) < self.script.longest:
                found.append(row)
                continue
            self.problems.meet("long", places.at(place), f"the record makes a row of {len(row):,} bytes, and a command has at most {LONGEST:,}")
            rejected.add(place)
        return found

    def extra(self, table, places):
        """The records that are rejected since they have fields that no column has."""
        others = [name for name in table.columns if name not in self.plan.known] if self.plan.open else ()
        if others and table.native and self.plan.may_grow:
            if any(value is not None and value != "" for name in others for value in table.columns[name]):
                self.grow(places)
            return set()
        rejected = set()
        for name in others:
            for place, value in enumerate(table.columns[name]):
                if value is not None and value != "" and place not in rejected:
                    if self.problems.meet("extra", places.at(place), f"no column has the field {name!r}") == "reject":
                        rejected.add(place)
        return rejected

    def grow(self, places):
        """Adds a dynamic column for fields that no column has."""
        column = self.plan.add_rest()
        self.script.widen(column)
        place = f"{places.chunk.name}: behind line {places.chunk.number:,}"
        self.say(f"{place} come fields that the first records lack; they go into {column.name}. To choose: --rest NAME or --on extra=drop")

    def tell(self, source, seconds):
        given, batches = self.script.given, self.script.batches
        self.rows += given
        rate = f", {given / seconds:,.0f} rows/s" if seconds > 0 and given else ""
        for told in getattr(source.reader, "told", tuple)():
            self.say(f"{source.path}: {told}")
        self.say(f"{source.path}: {names.counted(given, 'row')} in {names.counted(batches, 'batch')}, {seconds:.1f} s{rate}")

    def stop(self, fault):
        """Says why the loading ends early. What is left of the open batch isn't given, so that its tag stays free for all of it."""
        self.progress.end()
        self.say(f"stopped: {fault}")
        if hasattr(self, "script"):
            given = self.rows + self.script.given
            self.out.write(f"// tools/load stopped here, behind {names.counted(given, 'row')}.\n\n".encode())
            self.out.flush()
            self.say(f"{names.counted(given, 'row')} given before; the same files can be loaded again, and these go in once")

    def summary(self):
        """What became of the records that couldn't be given as they stand."""
        for column in self.plan.columns if hasattr(self, "plan") else ():
            if column.judge is not None and column.judge.rewritten:
                self.say(f"{column.name}: {names.counted(column.judge.rewritten, 'cell')} rewritten as a {column.kind}")
        for line in self.problems.told():
            self.say(line)
        tell_rejects(self.options, self.say)


def tell_rejects(options, say):
    """Says in which files rejected records are, and how many."""
    for path, count in options.rejects.told() if options.rejects is not None else ():
        say(f"{names.counted(count, 'record')} that didn't go in: {path}, as {'it was' if count == 1 else 'they were'}")


def schema(table, columns):
    """The command that makes the table, a line for each column."""
    lines = ",\n".join(f"    {names.column_name(column.name)}:{column.kind}" for column in columns)
    return f".create table {names.table_name(table)} (\n{lines}\n)\n"
