"""One run of `convert` on a table of few customers with decimals, seconds or places below 0, by the scale that it takes
or by one that is given: what the instance allows the table allows, by all plans; what was exact is the same."""
import csv
import os
import re
from fractions import Fraction

from cases.exact_tables import DUE, POWERS, READY, SERVICE, X, Y, ExactTable, all_plans, power_for, spelled
from judges.judging_layouts import demand_notes, demand_refusals, tool
from judges.judging_tables import plan_text
from judges.kind import Kind, tools_by
from judges.running import demand, got, put
from reference.instances import is_plan, plan_cost, read, route_cost, walk

MOST_PLACE, MOST_TIME = 10_000, 10 ** 6
NO_PLAN = "there is no plan: "
# The line of the depot, below the heading.
FIRST_LINE = 2


def clock(value):
    """Hours, minutes and seconds."""
    minutes, seconds = divmod(int(60 * value), 60)
    return "%d:%02d:%02d" % (*divmod(minutes, 60), seconds)


class Drawn:
    """A table, how its times are spelled, the options, and the scale that is right, None where none is held."""

    def __init__(self, random):
        self.random, self.has_clock = random, random.randrange(3) == 0
        self.parts = 60 if self.has_clock else random.choice([1, 1, 10, 10, 100, 1000, 10 ** 5])
        self.fine, self.far = random.choice([1, 1, 10, 100, 10 ** 5]), random.choice([3, 30, 30, 900, 9999])
        self.horizon, self.options = None, []
        count = random.choice([1, 2, 3, 3, 4])
        last = max(Fraction(30), Fraction(random.choice([3, 6]) * self.far))
        self.table = ExactTable([self.row(i, last) for i in range(count + 1)], random.randint(1, 3), 10)
        if random.randrange(4) == 0:
            self.take_horizon()
        given = random.choice(16 * [None] + [1, 3, 10, 60, 100])
        self.scale = self.right_scale() if given is None else given
        self.is_given, self.table.scale = given is not None, self.scale
        self.options += ["--scale", str(given)] if given else []

    def moment(self, low, high):
        """A moment between two, in parts of a unit."""
        return Fraction(self.random.randint(int(low * self.parts), int(high * self.parts)), self.parts)

    def row(self, i, last):
        random = self.random
        place = (Fraction(random.randint(-self.far * self.fine if random.randrange(6) == 0 else 0,
                                         self.far * self.fine), self.fine) for _ in "xy")
        ready = self.moment(0, last / 2 if i else 5)
        # Now and then a window of a moment or of less than a unit.
        due = ready + random.choice([0, Fraction(1, self.parts)]) if i and random.randrange(20) == 0 else self.moment(
            max(ready, last / 3), last) if i else last + self.moment(0, 1)
        return (*place, Fraction(random.randint(1, 4) if i else 0), ready, due, self.moment(0, 2) if i else Fraction(0))

    def take_horizon(self):
        """Takes the windows away; the day is told by an option instead."""
        first, last = self.random.choice([(0, 12 * 60), (0, 18 * 60), (6 * 60, 18 * 60), (18 * 60, 26 * 60)])
        word = "%d:%02d-%d:%02d" % (*divmod(first, 60), *divmod(last % (24 * 60), 60)) if first else str(last)
        self.horizon, self.options = (Fraction(first), Fraction(last)), ["--horizon", word]
        self.table.rows = [(*row[:READY], *self.horizon, row[SERVICE]) for row in self.table.rows]

    def is_clock(self):
        return self.has_clock and self.horizon is None or self.horizon is not None and self.horizon[0] > 0

    def whole(self):
        return [row[field] for row in self.table.rows for field in (X, Y, READY, DUE, SERVICE)]

    def is_held(self, scale):
        """Whether the limits hold all numbers, the places moved."""
        rows = self.table.rows
        wide = max(max(row[axis] for row in rows) - min(0, *(row[axis] for row in rows)) for axis in (X, Y))
        return wide * scale <= MOST_PLACE and max(max(row[READY:]) for row in rows) * scale <= MOST_TIME

    def right_scale(self):
        """The least power of ten that makes all whole, or the finest one that is held."""
        held, exact = [scale for scale in POWERS if self.is_held(scale)], power_for(self.whole())
        return exact if exact in held else held[-1] if held else None

    def is_exact(self):
        return all((value * self.scale).denominator == 1 for value in self.whole())

    def wrong_line(self):
        """The line that has to be refused, or None."""
        if self.scale is None or self.is_given and not (self.is_exact() and self.is_held(self.scale)):
            return -1
        for line, row in enumerate(self.table.rows, FIRST_LINE):
            if -(-row[READY] * self.scale // 1) > row[DUE] * self.scale // 1:
                return line
        return None


def demand_numbers(drawn, instance, errors):
    """Places are the nearest, windows aren't wider and services no shorter than in the table, none by a unit or more;
    and no number is farther off than is told."""
    scale, rows, off = drawn.scale, drawn.table.rows, []
    least = [min(0, *(nearest(row[axis] * scale) for row in rows)) for axis in (X, Y)]
    for right, row in zip(rows, instance.rows):
        for axis in (X, Y):
            there = right[axis] * scale - least[axis]
            demand(row[axis] == nearest(there), "a place at %s, and %s is right" % (row[axis], there))
            off.append(abs(row[axis] - there))
        ready, due, service = (right[field] * scale for field in (READY, DUE, SERVICE))
        for loss in (row[READY] // 10 - ready, due - row[DUE] // 10, row[SERVICE] // 10 - service):
            demand(0 <= loss < 1, "%r of %r times %d" % (row, right, scale))
            off.append(loss)
    told = re.search(r"([0-9]+) numbers are rounded, by at most ([0-9.]+) ", errors)
    count = sum(loss > 0 for loss in off)
    demand(bool(told) == (count > 0), "%d numbers are off: %r" % (count, errors))
    if told:
        most = max(off) / scale
        demand(int(told[1]) == count and most <= Fraction(told[2]) <= Fraction(11, 10) * most,
               "%d numbers by %s: %r" % (count, float(most), errors))


def nearest(value):
    return (value + Fraction(1, 2)) // 1


def demand_allowed(drawn, instance, plan):
    """A plan of the instance begins each service in the table's window, and serves and drives as long as the table
    says, but for what ways are shortened by the rounding of two places and by the cut to a tenth."""
    rows, one = drawn.table.rows, 10 * drawn.scale
    slack = Fraction(1415, 1000) + Fraction(1, 10)
    for route in plan:
        begins, finish = walk(instance, route)
        at, free = 0, rows[0][READY]
        for i, begin in zip(route + [0], [Fraction(time, one) for time in begins + [finish]]):
            demand(rows[i][READY] <= begin <= rows[i][DUE], "%r begins at %s at %d" % (route, begin, i))
            way = begin - free
            square = sum((rows[at][axis] - rows[i][axis]) ** 2 for axis in (X, Y))
            demand((way + slack / drawn.scale) ** 2 >= square, "%r drives to %d in %s" % (route, i, float(way)))
            at, free = i, begin + rows[i][SERVICE]
        demand(abs(Fraction(route_cost(instance, route), one) - drawn.table.cost([route])) <= (
            len(route) + 1) * slack / drawn.scale, "%r costs %d" % (route, route_cost(instance, route)))


def demand_plans(drawn, instance, errors):
    """What the instance allows the table allows; where all numbers are whole the plans are the same, at the same cost.
    Where it is told that there is no plan there is none, by the numbers that are told."""
    found, table = [], drawn.table
    for plan in all_plans(table.count):
        is_one = is_plan(instance, plan)
        found += [plan] if is_one else []
        if drawn.is_exact():
            demand(is_one == table.fits(plan) and plan_cost(instance, plan) == 10 * drawn.scale * table.cost(plan),
                   "%r: %s and %d, in the table %s and %s" % (
                       plan, is_one, plan_cost(instance, plan), table.fits(plan), table.cost(plan)))
        elif is_one:
            demand_allowed(drawn, instance, plan)
    demand(not (found and NO_PLAN in errors), "there is a plan: %r" % errors)
    demand(drawn.is_exact() or errors.count(NO_PLAN) == errors.count("by the rounded numbers " + NO_PLAN),
           "of which numbers there is no plan isn't told: %r" % errors)
    return found


def told(value, digits):
    """A number of 0 or more with so many digits, rounded to the nearest."""
    return "%d.%0*d" % (*divmod(int(nearest(value * 10 ** digits)), 10 ** digits)[:1], digits,
                        nearest(value * 10 ** digits) % 10 ** digits)


def demand_shown(drawn, instance, plan, words):
    """The timetable has begins and distances in the units of the table: times of the day cut to the minute, or else
    numbers with the digits of a tenth of a unit."""
    digits, one = len(str(drawn.scale - 1)) + 1 if drawn.scale > 1 else 1, 10 * drawn.scale
    out, errors, status = tool("timetable", *words, "--csv", "--depart", "early")
    demand(status == 0, "timetable: status %d, %r" % (status, errors))
    stops, sums, _ = (list(csv.DictReader(part.splitlines())) for part in out.decode().split("\n\n"))
    begins = [time for route in plan for part in [walk(instance, route)] for time in part[0] + [part[1]]]
    right = ["%02d:%02d" % divmod(time // one, 60) if drawn.is_clock() else told(Fraction(time, one), digits)
             for time in begins]
    shown = [row["begin"].split(" ")[0] for row in stops]
    days = [time // one < 24 * 60 for time in begins]
    demand(all(here == there for here, there, is_today in zip(shown, right, days) if is_today) and len(shown) == len(
        right), "begins at %r, and %r is right" % (shown, right))
    costs = [route_cost(instance, route) for route in plan]
    demand([row["distance"] for row in sums] == [told(Fraction(cost, one), digits) for cost in costs + [sum(costs)]],
           "distances: %r of %r" % (sums, costs))


def judge_roundings(folder, random):
    """A table by the scale that it takes, or by one that is given."""
    drawn = Drawn(random)
    source, target, names, plan = (os.path.join(folder, name) for name in (
        "table.csv", "instance.txt", "names.csv", "plan.txt"))
    put(source, drawn.table.text(random, clock if drawn.has_clock else spelled, drawn.horizon is None))
    came = tool("convert", source, target, "--vehicles", str(drawn.table.fleet), "--capacity", "10", "--names", names,
                *drawn.options)
    line, (out, errors, status) = drawn.wrong_line(), came
    if line is not None:
        at = re.search(r": line ([0-9]+): met ", errors)
        demand_refusals("convert", source, int(at[1]) if line < 0 and at else line, came)
        demand(got(target) is None, "convert wrote a file after a refusal")
        return "refused"
    demand((out, status) == (b"", 0), "convert: status %d, %r" % (status, errors))
    demand_notes("convert", errors)
    instance = read(got(target))
    demand_numbers(drawn, instance, errors)
    found = demand_plans(drawn, instance, errors)
    if found and random.randrange(3) == 0:
        shown = random.choice(found)
        put(plan, plan_text(instance, shown))
        demand_shown(drawn, instance, shown, [target, plan, "--names", names])
    return ("exact" if drawn.is_exact() else "rounded") + (", a plan" if found else ", no plan")


KINDS = {
    "roundings": Kind("a table with decimals or seconds, by convert: what fits here is allowed there, by all plans", 30,
                      tools_by(judge_roundings)),
}
