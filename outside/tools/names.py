"""The names of customers and what more a table says of them, kept beside an instance that has numbers alone."""
import csv
import io

from tools.table import Table
from tools.tool import Text, number
from tools.units import PLAIN, units_in

COLUMNS = ["number", "name"]
# The further column that tells where a customer is found.
ADDRESS = "address"
# Those that tell it in degrees, and how far they go.
DEGREES = {"lat": 90, "lon": 180}
# What stands in place of a sign that can't be printed.
UNKNOWN = "\ufffd"


class Names(list):
    """Names by number, from the depot's on; headings and fields of further columns; the units of before; and what
    parts the fields of their table."""

    def __init__(self, names, headings=(), further=None, units=PLAIN, separator=","):
        super().__init__(names)
        self.headings, self.units, self.separator = list(headings), units, separator
        self.further = further or [[] for _ in names]

    def address(self, i):
        """Where a customer is found, as far as the table says."""
        return self.further[i][self.headings.index(ADDRESS)] if ADDRESS in self.headings else ""

    def place(self, i):
        """Latitude and longitude of a place in degrees, or None where they aren't known."""
        if not set(DEGREES) <= set(self.headings):
            return None
        words = [number(self.further[i][self.headings.index(one)]) for one in DEGREES]
        is_one = all(word is not None and abs(word) <= limit for word, limit in zip(words, DEGREES.values()))
        return tuple(map(float, words)) if is_one else None

    def shown(self):
        """The places of further columns that aren't degrees or demands: those are told as places and loads alone."""
        kept = {*DEGREES, *(["demand"] if self.units.capacity is not None else [])}
        return [place for place, heading in enumerate(self.headings) if heading not in kept]

    def remarks(self, i):
        """What more stands there of a customer, as pairs of a heading and a field."""
        pairs = [(self.headings[place], self.further[i][place]) for place in self.shown()]
        return [pair for pair in pairs if pair[1] and pair[0] != ADDRESS]

    def has_names(self):
        """Whether a customer has a name beside its number."""
        return any(name != str(i) for i, name in enumerate(self) if i)

    def called(self, i):
        """How a customer is told in a sentence."""
        return self[i] if self[i] != str(i) else "customer %d" % i

    def told(self, i):
        """The same, with the place where others have the name, too."""
        return self.told_with_place(i) if self.count(self[i]) > 1 else self.called(i)

    def told_with_place(self, i):
        """How a customer is told, with its address, or else its degrees or number."""
        at = self.place(i)
        where = self.address(i) or ("%g, %g" % at if at else "" if self[i] == str(i) else "number %d" % i)
        return self.called(i) + (" (%s)" % where if where else "")


def clean(name):
    """A name in one line, of signs that can be printed."""
    return "".join(sign if sign.isprintable() else UNKNOWN for sign in " ".join(name.split()))


def named(name, stop):
    """The name of a place; one that is blank is its number, or says that it is the depot."""
    return clean(name) or (str(stop) if stop else "depot")


def table_of(names, headings=(), further=None, units=PLAIN, separator=","):
    """The table of names, whose rows begin with the depot's; above it what the numbers were before."""
    found, further = io.StringIO(), further or [[] for _ in names]
    csv.writer(found, delimiter=separator, lineterminator="\n").writerows(
        [[*COLUMNS, *headings], *([stop, name, *more] for stop, (name, more) in enumerate(zip(names, further)))])
    return units.line() + found.getvalue()


def names_of(path, count):
    """The names by number, from the depot's on; None without a file."""
    if path is None:
        return None
    text = Text(path, takes_others=True)
    table, found = Table(text, COLUMNS), {}
    table.judge_widths()
    wanted = "each number of 0 to %d once" % count
    own = [table.heading.index(column) for column in COLUMNS]
    others = [place for place in range(len(table.heading)) if place not in own]
    for line, fields in table.rows:
        word, name = (fields[place] for place in own)
        stop = text.whole(line, word, "a number of a customer", 0, count)
        if stop in found:
            text.refuse(line, "number %d again" % stop, wanted)
        found[stop] = named(name, int(stop)), [clean(fields[place]) for place in others]
    for stop in range(count + 1):
        if stop not in found:
            text.at_end(wanted, "no name of number %d" % stop)
    rows = [found[stop] for stop in range(count + 1)]
    return Names([name for name, _ in rows], [table.heading[place] for place in others],
                 [further for _, further in rows], units_in(text), table.parted_by)
