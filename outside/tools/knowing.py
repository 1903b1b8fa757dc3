"""Who of one day's customers is who of another's: by a number, by name and place, or by a name that each day has once.
Nobody is known by where a table has him.

A column has numbers where both tables have its heading, its fields are filled and all different in each, it doesn't
count the rows, nobody who keeps name and place has another one, and at least half of those with the same one keep name
or place: so an amount, or a count that begins anew each day, is none. Under a heading that says so (`is_number` of
headings.py) numbers decide alone, and who has another one is another customer. Under any other heading, as a telephone
or a town, they only part those of one name: who moved has another town, and is the same. An address is no number for
that reason; beside the name it is as good as the place.
"""
from collections import Counter
from fractions import Fraction

from tools.headings import OURS, is_number, meaning_of
from tools.names import Names
from tools.units import units_of


class Side:
    """A day's customers, by their numbers in it: names, blank where there are none, places, addresses, what else is
    asked of them, and further columns by their headings. Without a table of names units are those of the other day."""

    def __init__(self, instance, names, other):
        self.own = names
        if names is None:
            self.own = Names(map(str, range(instance.count + 1)), units=units_of(other))
        self.customers, self.rows = range(1, instance.count + 1), instance.rows
        self.names = ["" if name == str(i) else name for i, name in enumerate(self.own)]
        self.addresses = [self.own.address(i) for i in range(instance.count + 1)]
        self.degrees = [self.own.place(i) for i in range(instance.count + 1)]
        headings = [heading.lower() for heading in self.own.headings]
        self.columns = {heading: [row[place] for row in self.own.further] for place, heading in enumerate(headings)
                        if headings.count(heading) == 1 and meaning_of(heading) not in set(OURS) - {"customer"}}
        self.places = [None] * (instance.count + 1)

    def counts(self, heading):
        """Whether a column only counts the rows."""
        fields = [self.columns[heading][i] for i in self.customers]
        return all(field.isdecimal() and int(field) == row for row, field in enumerate(fields, 1))

    def is_told(self, heading):
        """Whether a column has fields that are filled and all different."""
        fields = [self.columns[heading][i] for i in self.customers]
        return all(fields) and len(set(fields)) == len(fields)


def lay_places(before, now):
    """Gives both days places that may be compared: degrees, or coordinates by one scale. Where some were below 0, and
    so all were moved, a coordinate counts from the depot's."""
    units = before.own.units, now.own.units
    if None not in before.degrees[1:] + now.degrees[1:]:
        before.places, now.places = before.degrees, now.degrees
    elif units[0].of_places() == units[1].of_places() or units[0].speed is units[1].speed is None:
        scaled = [[tuple(Fraction(at, own.scale) for at in row[:2]) for row in side.rows]
                  for side, own in zip((before, now), units)]
        is_moved = [any(not row[axis] for side in (before, now) for row in side.rows) for axis in (0, 1)]
        for side, places in zip((before, now), scaled):
            start = [places[0][axis] if is_moved[axis] and scaled[0][0][axis] != scaled[1][0][axis] else 0
                     for axis in (0, 1)]
            side.places = [tuple(at - own for at, own in zip(place, start)) for place in places]


def once(customers, key):
    """The customers by keys that one alone has; who has none, or a part of it is blank, has no key."""
    found = {i: key(i) for i in customers}
    counts = Counter(found.values())
    return {own: i for i, own in found.items() if counts[own] == 1 and own and None not in own and "" not in own}


class Knowing:
    """By the customers of before who they are now; who is gone or new; and who is perhaps gone or new, since name or
    place alone doesn't tell."""

    def __init__(self, instances, names):
        before, now = (Side(instance, own, other) for instance, own, other in zip(instances, names, names[::-1]))
        self.before, self.now, self.again = before, now, {}
        lay_places(before, now)
        self.heading = self.numbers()
        # Whether anything tells who is who.
        self.tells = bool(self.heading or any(before.names) and any(now.names) or before.places[1])
        if self.heading:
            self.again = self.by_column(self.heading)
        else:
            self.go_through()
        self.back = {after: i for i, after in self.again.items()}
        self.perhaps_gone, self.perhaps_new = ([], []) if self.heading else self.unclear()
        self.gone = [i for i in self.left()[0] if i not in self.perhaps_gone]
        self.new = [i for i in self.left()[1] if i not in self.perhaps_new]

    def left(self):
        """Who isn't known again, of before and of now."""
        known = set(self.again.values())
        return [i for i in self.before.customers if i not in self.again], [i for i in self.now.customers
                                                                           if i not in known]

    def take(self, key, some=None):
        """Knows those again whose key stands once in each day, or among some of each."""
        first, second = some or (self.before.customers, self.now.customers)
        found, other = once(first, lambda i: key(self.before, i)), once(second, lambda i: key(self.now, i))
        known = set(self.again.values())
        self.again.update({found[own]: other[own] for own in found.keys() & other.keys()
                           if found[own] not in self.again and other[own] not in known})

    def go_through(self):
        """Knows who can be known without numbers that decide."""
        self.take(named_place)
        self.take_unchanged(named_place)
        self.take(named_address)
        for heading in self.shared():
            if not is_number(heading) and self.is_of_numbers(heading) and self.settled():
                self.take(lambda side, i: (side.names[i], side.columns[heading][i]))
        self.take(lambda side, i: (side.names[i],))
        self.take_nameless()

    def take_unchanged(self, key):
        """Knows those of a group again who have the same key, where nobody of it has changed and no two are alike."""
        if self.before.own.units.line() != self.now.own.units.line():
            return
        groups = [grouped(left, lambda i, side=side: key(side, i), side.rows)
                  for left, side in zip(self.left(), (self.before, self.now))]
        for own in groups[0].keys() & groups[1].keys():
            first, second = ({row[2:]: i for i, row in group[own]} for group in groups)
            if first.keys() == second.keys() and len(first) == len(groups[0][own]) == len(groups[1][own]):
                self.again.update({i: second[row] for row, i in first.items()})

    def take_nameless(self):
        """Knows those by their places of whom one day has no name."""
        nameless = {side.places[i] for side, left in zip((self.before, self.now), self.left()) for i in left
                    if not side.names[i]}

        def place(side, i):
            return (side.places[i] if side.places[i] in nameless else None,)
        self.take(place, self.left())
        self.take_unchanged(place)

    def unclear(self):
        """Who isn't known again and has the name of somebody of the other day who isn't, or his place where one of both
        has no name."""
        left = self.left()
        return [[i for i in mine if any(self.may_be(side, i, other, j) for j in theirs)]
                for mine, theirs, side, other in ((*left, self.before, self.now), (*left[::-1], self.now, self.before))]

    @staticmethod
    def may_be(side, i, other, j):
        if side.names[i] and other.names[j]:
            return side.names[i] == other.names[j]
        return side.places[i] is not None and side.places[i] == other.places[j]

    def shared(self):
        """The headings of columns of both days that may have numbers."""
        return [heading for heading in self.before.columns if heading in self.now.columns
                and all(side.is_told(heading) for side in (self.before, self.now))
                and not all(side.counts(heading) for side in (self.before, self.now))]

    def numbers(self):
        """The heading of the numbers that decide, or None: of several that by which most are known again."""
        found = [heading for heading in self.shared() if is_number(heading) and self.is_of_numbers(heading)]
        return max(found, key=lambda heading: len(self.by_column(heading)), default=None)

    def by_column(self, heading):
        """Who has the same field of a column as whom."""
        there = {self.now.columns[heading][i]: i for i in self.now.customers}
        return {i: there[field] for i in self.before.customers for field in [self.before.columns[heading][i]]
                if field in there}

    def settled(self):
        """Who keeps name and place, or name and address."""
        found = {}
        for key in (named_address, named_place):
            first, second = (once(side.customers, lambda i, side=side: key(side, i))
                             for side in (self.before, self.now))
            found.update({first[own]: second[own] for own in first.keys() & second.keys()})
        return found

    def is_of_numbers(self, heading):
        """Whether those who are known again by a column are the right ones, as far as names and places tell."""
        pairs = self.by_column(heading)
        agreeing = sum(self.agrees(i, after) for i, after in pairs.items())
        return bool(pairs) and 2 * agreeing >= len(pairs) and all(
            pairs.get(i) == after for i, after in self.settled().items())

    def agrees(self, i, after):
        """Whether one of before and one of now have the same name, place or address."""
        pairs = [(side[i], other[after]) for side, other in (
            (self.before.names, self.now.names), (self.before.places, self.now.places),
            (self.before.addresses, self.now.addresses))]
        return any(mine and mine == other for mine, other in pairs)


def named_place(side, i):
    return side.names[i], side.places[i]


def named_address(side, i):
    return side.names[i], side.addresses[i]


def grouped(customers, key, rows):
    """Customers with their rows by their keys, without those of whom a part of the key isn't known."""
    found = {}
    for i in customers:
        if None not in key(i) and "" not in key(i):
            found.setdefault(key(i), []).append((i, rows[i]))
    return found
