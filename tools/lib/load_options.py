"""The words of tools/load, which ./kq-log takes too."""
import argparse
import copy
import datetime
import re

import logs
from cells import TYPES
from problems import KINDS, choices_of
from rejects import Beside, rejects_of
from sources import FORMATS, NAMED
from times import Moments, offset

KINDS_TOLD = "\n".join(f"  {kind:<10} {what}: {', '.join(choices)}" for kind, (what, choices) in KINDS.items())


def add_load_options(parser):
    """Adds the options that say how files are read."""
    shape = parser.add_argument_group("what the files are")
    shape.add_argument(
        "--format",
        metavar="FORMAT",
        type=format_of,
        default="auto",
        help=f"found from the first lines where it isn't said: {', '.join(FORMATS)}; "
        "or nginx:FORMAT or apache:FORMAT, as log_format and LogFormat have it",
    )
    shape.add_argument("--delimiter", metavar="C", help="what stands between the cells of CSV, as ';'")
    shape.add_argument("--no-quotes", dest="quotes", action="store_false", help="a quote is a sign like others")
    header = shape.add_mutually_exclusive_group()
    header.add_argument("--header", action="store_true", default=None, help="the first record has the names of the columns")
    header.add_argument("--no-header", dest="header", action="store_false", help="the first record is data")
    shape.add_argument("--names", metavar="NAME,..", type=words, help="names for the columns of CSV")
    shape.add_argument("--null", metavar="TEXT", dest="nulls", action="append", default=[], help="a cell of this text is empty")
    shape.add_argument("--zone", metavar="+HH:MM", default="", help="the zone of datetimes that name none (UTC)")
    shape.add_argument("--year", type=int, help="the year of datetimes that name none (the last that fits the file's time of change)")
    columns = parser.add_argument_group("which columns the table has")
    columns.add_argument("--type", metavar="NAME:TYPE", dest="types", action="append", default=[], type=words, help="the type of a column")
    columns.add_argument(
        "--scale",
        metavar="NAME:DIGITS",
        dest="scales",
        action="append",
        default=[],
        type=words,
        help="decimal numbers of a column become longs: with 3 digits 1.234 is 1234",
    )
    columns.add_argument("--only", metavar="NAME,..", type=words, help="takes these columns alone, in this order")
    columns.add_argument("--rest", metavar="NAME", help="a dynamic column for all fields that have none of their own")
    script = parser.add_argument_group("what is written")
    script.add_argument("--batch", metavar="N", type=int, default=10_000, help="rows of a batch, which also ends at a megabyte (10000)")
    script.add_argument("--no-table", dest="table", action="store_false", help="leaves .create table out")
    script.add_argument(
        "--table",
        metavar="NAME=FILE",
        dest="others",
        action="append",
        default=[],
        help="loads another file into another table; may be given several times",
    )
    script.add_argument("--print-schema", action="store_true", help="prints the columns that were found, and loads nothing")
    bad = parser.add_argument_group("records that can't be given as they stand")
    bad.add_argument(
        "--on",
        metavar="KIND=CHOICE",
        action="append",
        default=[],
        help="what becomes of a kind; the kinds stand below. `stop` or `reject` alone is for all kinds",
    )
    bad.add_argument(
        "--rejects", metavar="FILE", help="records that would stop the loading go into this file, as they are; it is made, and never over another one"
    )


def format_of(text):
    """A format that --format names."""
    if text.startswith(NAMED):
        try:
            logs.named(text)
        except ValueError as fault:
            raise argparse.ArgumentTypeError(str(fault)) from None
    elif text not in ("auto", *FORMATS):
        raise argparse.ArgumentTypeError(f"there is no format {text!r}; there are {', '.join(FORMATS)}, and nginx:.. and apache:..")
    return text


def words(text):
    return [word.strip() for word in text.split(",")]


def pairs(groups, what):
    """The last colon of each word parts a name from what is said of it."""
    found = {}
    for word in (word for group in groups for word in group):
        name, colon, said = word.rpartition(":")
        if not colon:
            raise ValueError(f"{word}: {what} is NAME:{'TYPE' if what == '--type' else 'DIGITS'}")
        found[name] = said
    return found


def settled(options, going_on=False):
    """Makes the words what the loading takes; a ValueError says what is wrong. `going_on` says that no spoiled record ends a loading."""
    options.types = pairs(options.types, "--type")
    for name, kind in options.types.items():
        if kind not in TYPES:
            raise ValueError(
                f"--type {name}:{kind}: the types are {', '.join(sorted(set(TYPES.values())))}; decimal numbers have none, --scale reads them as longs"
            )
        options.types[name] = TYPES[kind]
    options.scales = pairs(options.scales, "--scale")
    for name, digits in options.scales.items():
        if not re.fullmatch("[0-9]{1,2}", digits) or int(digits) > 18:
            raise ValueError(f"--scale {name}:{digits}: DIGITS is 0 to 18")
        if options.types.get(name, "long") != "long":
            raise ValueError(f"--scale {name}:{digits}: the column is a long, and --type says {options.types[name]}")
        options.scales[name] = int(digits)
    options.others = list(others_of(options.others))
    options.is_last, options.seen = not options.others, set()
    if not 1 <= options.batch <= 2**20:
        raise ValueError("--batch N: N is 1 to 1048576")
    if options.delimiter is not None and (len(options.delimiter) != 1 or options.delimiter in '"\r\n'):
        raise ValueError("--delimiter C: C is one sign, and no quote or line end")
    zone = offset(options.zone) if re.fullmatch("|Z|z|UTC|GMT|[+-][0-9]{2}(:?[0-9]{2})?", options.zone) else None
    if zone is None:
        raise ValueError(f"--zone {options.zone}: it is written as +01:00")
    options.going_on = going_on
    options.rejects = rejects_of(options) or (Beside() if going_on else None)
    options.choices = choices_of(options.on, options.rejects)
    options.format = None if options.format == "auto" else options.format
    latest = datetime.datetime(options.year, 12, 31, 23, 59, 59) - datetime.timedelta(days=1) if options.year else None
    options.moments = Moments("" if zone == "Z" else zone, latest)
    return options


def parts(options):
    """The options of each table: first those of --into, then those of each --table. What says how columns are read is for all that have them."""
    yield options
    for number, (table, path) in enumerate(options.others, 1):
        part = copy.copy(options)
        part.into, part.files, part.is_last = table, [path], number == len(options.others)
        part.format = part.names = part.header = part.only = part.rest = None
        yield part


def others_of(words):
    """The tables and files of --table NAME=FILE."""
    for word in words:
        name, equal, path = word.partition("=")
        if not (name and equal and path):
            raise ValueError(f"--table {word}: it is NAME=FILE")
        yield name, path


def formatter(prog):
    return argparse.RawDescriptionHelpFormatter(prog, max_help_position=32, width=120)
