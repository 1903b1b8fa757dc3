"""Tables of few customers in exact numbers: their texts, all their plans, and which of these fit by the table alone."""
from fractions import Fraction
from math import isqrt

POWERS = (1, 10, 100, 1000, 10_000)
COLUMNS = ("name", "x", "y", "demand", "ready", "due", "service")
X, Y, DEMAND, READY, DUE, SERVICE = range(6)


def spelled(value):
    """A number in decimals, of which it has few."""
    digits = next(digits for digits in range(9) if (value * 10 ** digits).denominator == 1)
    whole = abs(int(value * 10 ** digits))
    sign = "-" if value < 0 else ""
    return sign + ("%d.%0*d" % (*divmod(whole, 10 ** digits)[:1], digits, whole % 10 ** digits) if digits else
                   "%d" % whole)


def power_for(values):
    """The least power of ten that makes all whole, or None."""
    return next((power for power in POWERS if all((value * power).denominator == 1 for value in values)), None)


def all_plans(count):
    """Each set of routes in which each customer stands once."""
    plans = [[]]
    for i in range(1, count + 1):
        plans = [further for plan in plans for further in with_customer(plan, i)]
    return plans


def with_customer(plan, i):
    """A plan with one customer more, at each place of each route and alone."""
    yield plan + [[i]]
    for k, route in enumerate(plan):
        for at in range(len(route) + 1):
            yield plan[:k] + [route[:at] + [i] + route[at:]] + plan[k + 1:]


class ExactTable:
    """Rows of x, y, demand, ready, due and service as fractions, the depot's first; a fleet and a capacity. Arcs are
    cut to a tenth of a unit multiplied by the scale."""

    def __init__(self, rows, fleet, capacity):
        self.rows, self.fleet, self.capacity, self.count = rows, fleet, capacity, len(rows) - 1
        self.scale = power_for([row[field] for row in rows for field in (X, Y, READY, DUE, SERVICE)])

    def visits(self):
        """The places of customers without demand."""
        return [i for i in range(1, self.count + 1) if not self.rows[i][DEMAND]]

    def text(self, random, spell=spelled, has_windows=True):
        """The table as a spreadsheet saves it, times in a spelling; the field of no demand is 0 or empty."""
        kept = [0, 1 + X, 1 + Y, 1 + DEMAND, *([1 + READY, 1 + DUE] if has_windows else []), 1 + SERVICE]
        lines = [COLUMNS]
        for i, row in enumerate(self.rows):
            demand = spelled(row[DEMAND]) if row[DEMAND] else random.choice(["", "0", "0.0"])
            lines.append(["c%d" % i, *map(spelled, row[:DEMAND]), demand, *map(spell, row[READY:])])
        return "".join(",".join(line[place] for place in kept) + "\n" for line in lines).encode()

    def arc(self, i, j):
        fine, square = 10 * self.scale, sum((self.rows[i][axis] - self.rows[j][axis]) ** 2 for axis in (X, Y))
        return Fraction(isqrt(int(square * fine ** 2)), fine)

    def load(self, route):
        return sum((self.rows[i][DEMAND] for i in route), Fraction(0))

    def is_in_time(self, route):
        """Whether a vehicle that leaves when the depot opens serves a route in the windows and is back in time."""
        at, time = 0, self.rows[0][READY]
        for i in route:
            time = max(time + self.arc(at, i), self.rows[i][READY])
            if time > self.rows[i][DUE]:
                return False
            at, time = i, time + self.rows[i][SERVICE]
        return time + self.arc(at, 0) <= self.rows[0][DUE]

    def fits(self, plan):
        return len(plan) <= self.fleet and all(
            self.load(route) <= self.capacity and self.is_in_time(route) for route in plan)

    def cost(self, plan):
        return sum(self.arc(a, b) for route in plan for a, b in zip([0] + route, route + [0]))
