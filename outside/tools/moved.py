"""A plan that was moved by hand: vehicles and their stops, from a table or as solvers spell them."""
import csv

from tools.headings import NAMED, SEPARATORS, meaning_of
from tools.moved_names import Alike
from tools.names import clean
from tools.naming import ARROW, Naming, numbering_of
from tools.respelling import HEAD, ROUTE, Spelled
from tools.tool import quoted

# Headings of the column that says which vehicle, and of the one that has a customer's number.
VEHICLES = ("vehicle", "route", "van", "truck", "tour", "driver", "fahrzeug", "wagen", "fahrer", "véhicule", "vehicule",
            "camion", "tournée", "chauffeur", "ruta", "vehículo", "vehiculo", "voertuig", "rit", "veicolo", "giro")
NUMBERS = ("stop", "number", "customer")
# What a solver's text begins with.
OPENING = "[({"


class Moved:
    """The routes of a plan, each with what its vehicle is called and the numbers of its stops, as far as they are
    customers; and what is passed over."""

    def __init__(self, text, instance, names):
        self.text, self.count, self.names, self.notes = text, instance.count, names, []
        self.instance = instance
        self.naming = Naming(text, numbering_of(instance.count, False, names))
        rows = self.rows()
        if not rows:
            text.at_end("a vehicle with its stops")
        if Column(rows[0][1]).is_heading():
            self.routes = self.by_stop(rows)
        elif self.is_spelled(rows):
            found = Spelled(text, self.naming.numbering, instance.count)
            self.routes = [(str(place), self.customers(stops)) for place, stops in enumerate(found.routes, 1)]
        else:
            self.routes = [self.by_vehicle(place, *row) for place, row in enumerate(rows, 1)]
        self.routes = [(called, stops) for called, stops in self.routes if stops]
        if not self.routes:
            text.at_end("a vehicle with its stops")

    def rows(self):
        """The lines as fields, with their numbers, by the sign that parts most of them."""
        told = [line for _, line in self.text.filled()]
        separator = max(SEPARATORS, key=lambda one: sum(line.count(one) for line in told))
        found = []
        for line, row in self.text.filled():
            fields = next(csv.reader([row], delimiter=separator), [])
            if any(field.strip() for field in fields):
                found.append((line, [field.strip() for field in fields]))
        return found

    def is_spelled(self, rows):
        """Whether it is a solver's text; so are bare numbers where no names are known."""
        lines = [line for _, line in self.text.filled()]
        return (any(ROUTE.match(line) or HEAD.match(line) or ARROW.search(line) for line in lines)
                or lines[0][0] in OPENING or self.names is None and all(len(row) == 1 for _, row in rows))

    def by_stop(self, rows):
        """The routes of a table with a line for each stop, up to the next table in it."""
        columns, found = Column(rows[0][1]), {}
        alike = None if self.names is None else Alike(self.instance, self.names, rows[0][1])
        for line, fields in rows[1:]:
            if Column(fields).vehicle is not None:
                break
            called = columns.field(fields, columns.vehicle)
            stop = self.stop_of(line, fields, columns, alike)
            if stop and called:
                found.setdefault(called, []).append(stop)
        return list(found.items())

    def stop_of(self, line, fields, columns, alike):
        """The customer of a line, 0 for the depot, or None; name and number have to be those of one. Where several have
        the name, the number tells, or what else stands there."""
        name, number = (columns.field(fields, place) for place in (columns.name, columns.number))
        told = [self.number(line, number)] if number else []
        same = self.naming.numbers.get(clean(name), []) if name else []
        if len(same) > 1:
            same = [i for i in told if i in same] or alike.parted(fields, same)
        told += same if len(same) == 1 else [self.number(line, name)] if name else []
        if len(set(told)) > 1:
            self.text.refuse(line, "%s beside %s" % (quoted(name), quoted(number)), "name and number of one customer")
        return told[0] if told else None

    def number(self, line, word):
        """The customer that a word says, 0 for the depot."""
        stop = self.naming.stop(line, word)
        if not 0 <= stop <= self.count + 1:
            self.text.refuse(line, quoted(word), self.naming.numbering.told())
        return int(stop) if stop <= self.count else 0

    def customers(self, stops):
        """The customers among stops, without the depot at both ends."""
        return [number for number in (self.number(stop.line, str(stop)) for stop in stops) if number]

    def by_vehicle(self, place, line, fields):
        """A vehicle and its stops, from a line whose first field may be what it is called."""
        fields = [field for field in fields if field]
        called = str(place)
        if len(fields) > 1 and not self.is_stop(fields[0]):
            called, fields = fields[0], fields[1:]
        return called, [number for number in (self.number(line, field) for field in fields) if number]

    def is_stop(self, word):
        """Whether a word is a customer's name, or a number where no names are known."""
        return self.naming.is_name(word) if self.names is not None else word.isdigit()


class Column:
    """Where a heading line has vehicles, names and numbers."""

    def __init__(self, fields):
        there = [" ".join(field.lower().split()) for field in fields]
        self.vehicle = next((place for place, field in enumerate(there) if field in VEHICLES), None)
        self.number = next((place for place, field in enumerate(there) if field in NUMBERS), None)
        self.name = next((place for place, field in enumerate(there)
                          if meaning_of(field) in NAMED and place != self.number), None)

    def is_heading(self):
        return self.vehicle is not None and (self.number is not None or self.name is not None)

    @staticmethod
    def field(fields, place):
        """The field of a column, blank where there is none."""
        return fields[place] if place is not None and place < len(fields) else ""
