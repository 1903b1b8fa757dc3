"""Instances as objects of JSON, as timetable --json writes them or by hand: docs/timetable.schema.json says what they
have. Places are read as the rows of a table, each in the line in which its object begins."""
import copy
import csv
import io
from decimal import Decimal
from fractions import Fraction
from json import JSONDecodeError, JSONDecoder, decoder, scanner

from tools import csv_layout
from tools.tool import number, quoted
from tools.units import Units, read_line

PLACES, HEAD = "places", 2
# What isn't a column of a table: of places, and of what their timetable says of them.
PASSED = ("stop", "clock", "place")
MEASURED = ("x", "y", "ready", "due", "service")
WANTED = "an object with vehicles, capacity and places, or one that has it as instance"


class Object(dict):
    """An object that knows the line in which it begins."""

    line = 1


class Lines(JSONDecoder):
    """Reads objects with their lines; numbers stay the words that they are."""

    def __init__(self):
        super().__init__(parse_float=str, parse_int=str, parse_constant=str)
        self.parse_object = self.placed
        self.scan_once = scanner.py_make_scanner(self)

    @staticmethod
    def placed(begun, *rest):
        pairs, end = decoder.JSONObject(begun, *rest)
        found = Object(pairs)
        found.line = begun[0].count("\n", 0, begun[1]) + 1
        return found, end


def decoded(text):
    """The object of an instance."""
    try:
        whole = Lines().decode("\n".join(text.lines))
    except JSONDecodeError as fault:
        text.refuse(fault.lineno, fault.msg, "JSON")
    except RecursionError:
        text.refuse(1, "lists or objects within each other too deep", "JSON")
    found = whole.get("instance", whole) if isinstance(whole, Object) else None
    if not isinstance(found, Object) or not isinstance(found.get(PLACES), list):
        text.refuse(getattr(found, "line", 1), "no list of places", WANTED)
    return found


def word_of(text, line, name, value):
    """A number or a string as a field of a table."""
    if not isinstance(value, str):
        text.refuse(line, "no number or string in %s" % quoted(name), "one")
    return " ".join(value.split())


def row_of(text, place, fallback):
    """The words of a place by their columns, with its line."""
    if not isinstance(place, Object):
        text.refuse(fallback, "a place that is no object", "objects in places")
    told = place.get("place", Object())
    if not isinstance(told, Object):
        text.refuse(place.line, 'no object in "place"', "one")
    words = {name: word_of(text, place.line, name, value) for name, value in {**told, **place}.items()
             if name not in PASSED}
    if not any(words.get(name) for name in ("x", "lat")):
        text.refuse(place.line, "a place without x and y, or lat and lon", "them in each")
    return words


def multiplied(word, scale):
    """A number of the table that came in, in units of the instance: of a scale that isn't a power of ten its decimals
    say the nearest."""
    value = number(word)
    if value is None:
        return word
    near = round(value * scale)
    if abs(value * scale - near) <= Fraction(scale, 10 ** Units(scale).digits()):
        return "%d" % near
    return format(Decimal(word) * scale, "f")


def in_units(rows, units):
    """Rows whose numbers are those of the instance that had these units."""
    # Loads that are counted otherwise are those of the table, and counted anew.
    factors = {**dict.fromkeys(MEASURED, units.scale), **({"demand": units.demands} if units.capacity is None else {})}
    return [{name: multiplied(word, factors[name]) if name in factors else word for name, word in row.items()}
            for row in rows]


def told_units(text, found, quantities):
    """The units that the instance had before, with the scale of the option where there is one; None where it says
    none."""
    if "units" not in found:
        return None
    units = read_line(text, found.line, word_of(text, found.line, "units", found["units"]))
    return units.but(scale=quantities.scale if quantities.is_scaled else units.scale, visits=1)


def line_of(columns, row):
    held = io.StringIO()
    csv.writer(held, lineterminator="").writerow([row.get(column, "") for column in columns])
    return held.getvalue()


def as_table(text, rows, lines):
    """A text with the rows of a table in these lines, and what separates and the headings above them; where no lines
    are left for those, or places share one, in lines of their own."""
    names = list(dict.fromkeys(name for row in rows for name in row))
    columns = [name for name in csv_layout.COLUMNS + csv_layout.DEGREES if name in names]
    columns += [name for name in names if name not in columns]
    if lines[0] <= HEAD or any(one >= other for one, other in zip(lines, lines[1:])):
        lines = range(HEAD + 1, HEAD + 1 + len(rows))
    found = copy.copy(text)
    found.lines = [""] * lines[-1]
    found.lines[lines[0] - 3:lines[0] - 1] = ["sep=,", line_of(columns, dict(zip(columns, columns)))]
    for line, row in zip(lines, rows):
        found.lines[line - 1] = line_of(columns, row)
    return found


def read(text, quantities):
    """An instance, whose name, fleet and capacity may be lacking."""
    found = decoded(text)
    rows = [row_of(text, place, found.line) for place in found[PLACES]]
    if not rows:
        text.refuse(found.line, "no places", "the depot and a customer")
    told = {name: word_of(text, found.line, name, found[name])
            for name in ("name", "vehicles", "capacity") if name in found}
    units = told_units(text, found, quantities)
    # A number is no time of the day here, as it may be in a table.
    quantities.as_numbers = True
    if units is not None:
        rows, quantities.scale, quantities.is_scaled = in_units(rows, units), 1, True
    is_counted = units is not None and units.capacity is not None
    if is_counted:
        told.pop("capacity", None)
    fleet, capacity = (judge(found.line, told[name]) if name in told else None for name, judge in (
        ("vehicles", quantities.fleet), ("capacity", quantities.capacity)))
    if quantities.capacity_given is None and is_counted:
        quantities.capacity_given = units.capacity
    if quantities.capacity_given is None and units is None:
        quantities.capacity_given = capacity
    came = csv_layout.read(as_table(text, rows, [place.line for place in found[PLACES]]), quantities)
    return came._replace(name=told.get("name"), fleet=fleet, capacity=capacity, units=units or came.units)
