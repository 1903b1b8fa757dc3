"""Two days of customers of equal names: who is who, what the tables of both days say of them, and routes."""
from reference.instances import Instance

NAMES = ("Müller", "Beta", "Nord", "Ost, Anna", "Delta")
# Headings of numbers that are known, and of columns that are none.
KNOWN, OTHERS = ("Auftrags-Nr.", "customer number", "order", "Kundennr", "n° commande", "ID"), ("Telefon", "ort", "plz")
NO_NUMBERS, KEPT, KEPT_OTHER, AFRESH, COUNTED, AMOUNT, GAPS = range(7)
DEPOT = 10, 10
LAST = 9000


class Person:
    """A customer of one day: who it is, and what the table says."""

    def __init__(self, who, name, place, door, number, asked):
        self.who, self.name, self.place, self.door, self.number, self.asked = who, name, place, door, number, asked

    def copied(self, **changed):
        found = Person(self.who, self.name, self.place, self.door, self.number, self.asked)
        vars(found).update(changed)
        return found


def drawn_asked(random):
    """Demand, ready time, due date and service."""
    ready = random.randrange(300)
    return random.randint(1, 40), ready, random.randint(6000, LAST - 1000), random.randrange(60)


class TwoDays:
    """Both days, each a list of persons in the order of its table. Where they are clean nobody comes who looks like
    another: who is new or moved has a place of its own, and who is new a free name or that of somebody who stays."""

    def __init__(self, random):
        self.random, self.is_clean, self.met = random, random.randrange(2) == 0, 0
        self.kind = random.choice([NO_NUMBERS, NO_NUMBERS, KEPT, KEPT, KEPT_OTHER, AFRESH, COUNTED, AMOUNT, GAPS])
        self.kind = KEPT if self.is_clean and self.kind == AMOUNT else self.kind
        self.heading = None if self.kind == NO_NUMBERS else random.choice(
            OTHERS if self.kind in (KEPT_OTHER, AMOUNT) else KNOWN)
        self.names = NAMES[:random.randint(1, len(NAMES))]
        self.places = [(random.randint(-9, 30), random.randint(-9, 30)) for _ in range(random.randint(1, 6))]
        self.free = [(40 + at, random.randint(-9, 30)) for at in range(40)]
        self.has_address, self.has_doors = random.randrange(4) > 0, random.randrange(3) == 0
        self.is_nameless = random.choice([(0, 0)] * 8 + [(1, 1), (0, 1)])
        if all(self.is_nameless) and random.randrange(2):
            self.has_address, self.kind, self.heading = False, NO_NUMBERS, None
        first = [self.person() for _ in range(random.randint(1, 9))]
        second = [self.next_day(one) for one in first if random.randrange(5)]
        second += [self.newcomer(first, second) for _ in range(random.randint(0 if second else 1, 2))]
        if random.randrange(4):
            random.shuffle(second)
        if self.kind == COUNTED:
            for day in (first, second):
                for row, one in enumerate(day, 1):
                    one.number = str(row)
        self.days = [first, second]
        self.renumber()

    def person(self):
        """Somebody with a name of the few, or now and then without one."""
        self.met += 1
        name = "" if self.random.randrange(12) == 0 else self.random.choice(self.names)
        place = self.random.choice(self.places)
        return Person(self.met, name, place, self.door(place), "%d" % (100 + 7 * self.met), drawn_asked(self.random))

    def door(self, place):
        return "Weg %d%s" % (41 * place[0] + place[1], " %s" % chr(96 + self.met % 26) if self.has_doors else "")

    def at_free_place(self, person):
        place = self.free.pop()
        return person.copied(place=place, door=self.door(place))

    def next_day(self, one):
        """The same one a day later."""
        random, found = self.random, one.copied()
        if random.randrange(6) == 0:
            found = self.at_free_place(one)
        if random.randrange(6) == 0:
            found.asked = drawn_asked(random)
        if self.kind == KEPT and random.randrange(10) == 0:
            found.name = "once %d" % one.who
        if not self.is_clean and random.randrange(10) == 0:
            found.name = random.choice(["", *self.names])
        return found

    def newcomer(self, first, second):
        one = self.person()
        if not self.is_clean:
            return one
        stay = {mate.who for mate in second}
        free = [mate.name for mate in first if mate.who in stay and mate.name in [now.name for now in second]]
        one = self.at_free_place(one)
        one.name = self.random.choice(["new %d" % one.who, *filter(None, free)])
        return one

    def renumber(self):
        """The numbers of a column that keeps none."""
        random = self.random
        for at, day in enumerate(self.days):
            for one, number in zip(day, random.sample(range(1, len(day) + 1), len(day))):
                if self.kind == AFRESH:
                    one.number = str(number + (1000 * at if self.is_clean else 0))
                if self.kind == AMOUNT and random.randrange(3) == 0:
                    one.number = "%d,5" % (number + 3)
            if self.kind == GAPS and random.randrange(2):
                random.choice(day).number = random.choice(["", day[0].number])

    def called(self, at, one):
        """A person's name in the table of a day."""
        return "" if self.is_nameless[at] else one.name

    def truth(self):
        """By the places in the first table those of the same persons in the second one."""
        there = {one.who: place for place, one in enumerate(self.days[1], 1)}
        return {place: there[one.who] for place, one in enumerate(self.days[0], 1) if one.who in there}


def instance_of(day, scale, shift):
    """The instance of a day, its coordinates moved."""
    rows = [(*DEPOT, 0, 0, LAST, 0)] + [(*one.place, *one.asked) for one in day]
    return Instance(b"day", 9, 2000, [(scale * (x + shift[0]), scale * (y + shift[1]), demand, *(
        10 * scale * moment for moment in times)) for x, y, demand, *times in rows])


def shift_of(day):
    """By how much convert moves the coordinates of a day."""
    places = [DEPOT] + [one.place for one in day]
    return [max(0, -min(place[axis] for place in places)) for axis in (0, 1)]


def routes_of(random, day):
    """Routes of a day, at first drawn."""
    found = [[] for _ in range(random.randint(1, 5))]
    for i in random.sample(range(1, len(day) + 1), len(day)):
        random.choice(found).append(i)
    return [route for route in found if route]


def later_routes(random, routes, day, truth):
    """Routes of the next day: most of those who stay are together again, in any order of vehicles."""
    vehicle = {truth[i]: k for k, route in enumerate(routes) for i in route if i in truth}
    found = {}
    for i in random.sample(range(1, len(day) + 1), len(day)):
        k = vehicle[i] if i in vehicle and random.randrange(5) else random.randrange(len(routes) + 1)
        found.setdefault(k, []).append(i)
    return random.sample(list(found.values()), len(found))
