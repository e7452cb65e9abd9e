"""The words of ./kq-page."""
import argparse
import os

from load_options import KINDS_TOLD, add_load_options, formatter, settled

EPILOG = f"""
The address that is printed lets in whoever has it, so keep it to yourself. It works on this machine alone, until Ctrl-C ends
the page, the program and its tables.

Examples:

  ./kq-page access.log
  ./kq-page access.log.1.gz access.log --into Requests --type Status:int
  ./kq-page audit.json --into Audit --first views.kql

The files are read as tools/load reads them; tools/load --help says more of its options. The kinds of --on:

{KINDS_TOLD}

Exit status: 0 where the page was ended by Ctrl-C or a signal to end; 1 where it couldn't be served; 2 where the words are wrong.
"""


def read_words(words=None):
    parser = argparse.ArgumentParser(prog="./kq-page", description="Loads log files and serves a page on this machine to ask about them.", epilog=EPILOG, formatter_class=formatter)
    parser.add_argument("files", nargs="+", metavar="FILE", help="as tools/load reads them")
    parser.add_argument("--into", default="Log", metavar="TABLE", help="the table (Log)")
    parser.add_argument("--first", metavar="FILE", help="a script that is run before the files are loaded, as for views and policies")
    parser.add_argument("--program", metavar="FILE", help="the program (the proved one, where it is built)")
    add_load_options(parser)
    options = parser.parse_args(words)
    if "-" in options.files:
        parser.error("standard input can't be loaded anew when the program ends; ./kq-log reads it")
    if options.print_schema:
        parser.error("--print-schema is for tools/load")
    if options.first and not os.path.isfile(options.first):
        parser.error(f"--first {options.first}: there is no such file")
    try:
        return settled(options)
    except ValueError as fault:
        parser.error(str(fault))
