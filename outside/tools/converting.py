"""What `convert` and `plan` have in common: their words for an instance of another layout, and its problem."""
import argparse
import os
from fractions import Fraction

from tools import csv_layout, json_layout, names, objects, solomon_layout, vrplib_layout
from tools.clock_times import minutes_of
from tools.layouts import MOST_FLEET, MOST_NUMBER, MOST_SCALE, MOST_TIME, Quantities, problem_of
from tools.loads import DIGITS
from tools.noting import grouped
from tools.tool import Refused, Text, count, number, quoted
from tools.units import Units

READERS = {"ours": solomon_layout.read, "solomon": solomon_layout.read, "vrplib": vrplib_layout.read,
           "csv": csv_layout.read, "json": json_layout.read}
WRITERS = {"ours": solomon_layout.write_ours, "solomon": solomon_layout.write, "vrplib": vrplib_layout.write,
           "csv": csv_layout.write, "json": objects.of_problem}
# The layouts whose places have names.
NAMED_LAYOUTS = ("csv", "json")
# What a column may be called otherwise.
NAMED_COLUMNS = ("name", "address", "priority", "x", "y", "lat", "lon", "demand", "ready", "due", "service")
# Those of workbooks, of which a sheet is read once it is saved as CSV.
BOOKS = (".xlsx", ".xlsm", ".xls", ".ods", ".numbers")
ENDINGS = {".txt": "ours", ".vrp": "vrplib", ".csv": "csv", ".json": "json"}


class Horizon:
    """The day of a file without windows, in numbers or in minutes since midnight."""

    def __init__(self, first, last, is_clock):
        self.first, self.last, self.is_clock = first, last, is_clock

    def shown(self, scale):
        if self.is_clock:
            return tuple(Units(clock=1).moment(10 * moment) for moment in (self.first, self.last))
        return self.first * scale, self.last * scale


def horizon(word):
    """The reader of the day: a number, a time of the day, or two of them with a line between."""
    words = word.split("-") if word.count("-") == 1 else [word]
    clocks = [minutes_of(one.strip()) for one in words]
    if None not in clocks and all(moment.denominator == 1 for moment in map(Fraction, clocks)):
        first, last = [0, *map(int, clocks)][-2:]
        # A day may go over midnight.
        return Horizon(first, last + (24 * 60 if last < first else 0), True)
    return Horizon(0, count(1, MOST_TIME)(word), False)


def positive(word):
    """The reader of a number above 0."""
    value = number(word)
    if value is None or not Fraction(1, 1000) <= value <= 1000 or value.denominator > 10 ** 6:
        raise argparse.ArgumentTypeError("met %s, wanted a number of 0.001 to 1000, of at most 6 decimals" % (
            quoted(word)))
    return value


def load(word):
    """The reader of what a vehicle holds: of a table it may be any number above 0."""
    value = number(word)
    if value is None or not 0 < value <= MOST_NUMBER or value * 10 ** DIGITS % 1:
        raise argparse.ArgumentTypeError("met %s, wanted a number above 0 and up to %d, of at most %d decimals" % (
            quoted(word), MOST_NUMBER, DIGITS))
    return int(value) if value % 1 == 0 else value


def column(word):
    """The reader of a pair: our name of a column, and the heading there."""
    ours, sign, theirs = word.partition("=")
    if not sign or ours not in NAMED_COLUMNS or not theirs.strip():
        raise argparse.ArgumentTypeError("met %s, wanted OURS=THEIRS, with %s in front" % (
            quoted(word), ", ".join(NAMED_COLUMNS)))
    return ours, theirs.strip()


class Columns(argparse.Action):
    """Keeps pairs, each of our names once, by the headings there."""

    def __call__(self, parser, given, pair, option=None):
        ours, theirs = pair
        before = getattr(given, self.dest)
        if ours in before.values() or theirs.lower() in before:
            raise argparse.ArgumentError(self, "met %s again, wanted each column once" % quoted("=".join(pair)))
        setattr(given, self.dest, {**before, theirs.lower(): ours})


def add_words(found):
    """Adds the options that say what a file doesn't hold, or how it is read."""
    found.add_argument("--from", dest="source_layout", choices=READERS, help="the layout of FROM")
    found.add_argument("--vehicles", type=count(1, MOST_FLEET), metavar="N", help="how many vehicles there are")
    found.add_argument("--capacity", type=load, metavar="N", help="what each vehicle holds")
    found.add_argument("--name", help="the name of the instance")
    found.add_argument("--scale", type=count(1, MOST_SCALE), metavar="N", help="multiplies coordinates and times")
    found.add_argument("--horizon", type=horizon, metavar="TIME",
                       help="the end of the day, or FROM-TO, for a file without windows")
    found.add_argument("--speed", type=positive, metavar="N", help="km/h, for places by lat and lon")
    found.add_argument("--detour", type=positive, metavar="N",
                       help="how much longer roads are than the straight line; else 1.3")
    found.add_argument("--column", dest="columns", type=column, action=Columns, default={}, metavar="OURS=THEIRS",
                       help="a column that has another heading there, as name=Kunde")
    found.add_argument("--times-as-numbers", action="store_true",
                       help="times without a colon are numbers, even where they look like times of the day")


def layout(path, given, option):
    """The layout of a file, by the option or by its ending."""
    ending = os.path.splitext(path)[1].lower()
    if given is None and option == "--from" and ending in BOOKS:
        # What is in it says what to do.
        return "csv"
    if given is None and ending not in ENDINGS:
        raise Refused("%s: met the ending \"%s\", wanted %s, or a layout by %s"
                      % (path, ending, ", ".join(ENDINGS), option))
    return given or ENDINGS[ending]


def read_problem(given, source_layout, keeps_names, needs_names):
    """The problem of the file FROM, and what is noted; names are kept, and needed, by `layouts.Quantities`."""
    text = Text(given.source, takes_others=source_layout == "csv")
    quantities = Quantities(text, given, keeps_names, needs_names)
    found = READERS[source_layout](text, quantities)
    for option, value in (("--speed", given.speed), ("--detour", given.detour)):
        if value is not None and not quantities.is_projected:
            raise Refused("%s: met %s and no lat and lon, wanted both or none" % (text.path, option))
    problem, notes = problem_of(text, quantities, found, given)
    return problem, grouped(notes + ([quantities.noted_scale()] if (given.scale or 1) > 1 else []))


def table_of(own):
    """The table of names, with what more is known."""
    return names.table_of(own, own.headings, own.further, own.units, own.separator)
