"""What in a table is right as it stands, and yet likely to be meant otherwise."""
from math import hypot
from statistics import median

from tools.globe import all_swapped, looks_swapped, on_globe
from tools.headings import NAMED
from tools.noting import DOUBT, Note
from tools.tool import listed, quoted

# How many places are told of a kind, and how much farther than the median is far.
MOST_NAMED, FAR = 8, 10


def several(found):
    """Places side by side, of many the first ones."""
    return listed(found, MOST_NAMED)


def groups(rows, key):
    """The rows that have the same key as another one, in groups."""
    found = {}
    for row in rows:
        if key(row):
            found.setdefault(key(row), []).append(row)
    return [group for group in found.values() if len(group) > 1]


def lines_of(group):
    return "lines %s" % ", ".join(str(row.line) for row in group)


class Row:
    """A customer's row: its line, its fields, its name and its numbers."""

    def __init__(self, table, line, fields, cells):
        self.line, self.fields, self.cells = line, tuple(fields), cells
        column = next((column for column in NAMED if column in table.heading), None)
        self.name = table.field(fields, column)
        self.place = tuple(cells[column].value for column in table.columns[:2])

    def told(self):
        return "%sline %d" % (self.name + ", " if self.name else "", self.line)

    def number(self, column):
        return self.cells[column].value


def doubled(rows):
    """Rows, names and places that stand twice."""
    same = groups(rows, lambda row: row.fields)
    if same:
        yield "the same row stands in %s" % several([lines_of(group) for group in same])
    names = [group for group in groups(rows, lambda row: row.name.casefold()) if len({row.fields for row in group}) > 1]
    if names:
        yield "the same name stands in %s" % several(
            ["%s (%s)" % (lines_of(group), group[0].name) for group in names])
    places = [group for group in groups(rows, lambda row: row.place) if len({row.name for row in group}) > 1]
    if places:
        yield "the same place has several names: %s" % several(
            ["%s (%s)" % (lines_of(group), ", ".join(dict.fromkeys(row.name for row in group))) for group in places])


def far(depot, rows, is_projected, swapped):
    """Customers that are much farther from the depot than the median."""
    def way(row):
        if is_projected:
            return on_globe(depot.place, row.place)
        return hypot(*(float(here - there) for here, there in zip(depot.place, row.place)))
    ways = [way(row) for row in rows]
    middle = median(ways) if len(rows) > 2 else 0
    found = [row for row, own in zip(rows, ways) if own > FAR * middle > 0 and row.line not in swapped]
    if found:
        yield "%s: more than %d times as far from the depot as the median" % (several([row.told() for row in found]),
                                                                             FAR)


def timed(depot, rows):
    """Windows shorter than their service, and services longer than the day."""
    day = depot.number("due") - depot.number("ready")
    long = [row for row in rows if row.number("service") > day]
    if long:
        yield "%s: a service that is longer than the day" % several([row.told() for row in long])
    short = [row for row in rows if row.number("due") - row.number("ready") < row.number("service") <= day]
    if short:
        yield "%s: a window shorter than its service, which is right where service may end behind it" % several(
            [row.told() for row in short])


def doubts(values):
    """What is noted as doubtful, each kind in a line."""
    depot, *rows = [Row(values.table, line, fields, cells)
                    for (line, fields), (_, cells) in zip(values.table.rows, values.rows)]
    swapped = [row for row, is_so in zip([depot, *rows], looks_swapped([row.place for row in (depot, *rows)])) if is_so
               ] if values.is_projected else []
    found = ["%s: lat and lon look swapped" % several([row.told() for row in swapped])] if swapped else []
    all_of_them = all_swapped([row.place for row in (depot, *rows)]) if values.is_projected else ""
    found += ["lat and lon look swapped in all rows: %s" % all_of_them] if all_of_them else []
    lines = {row.line for row in swapped}
    found += [*far(depot, rows, values.is_projected, lines), *doubled(rows), *timed(depot, rows)]
    return [Note("doubtful: " + told, DOUBT) for told in found]
