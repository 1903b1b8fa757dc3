"""What the numbers of an instance were before it was converted, and how they are shown: `06:30` and not 3900."""
import re
from decimal import ROUND_UP, Context, Decimal
from fractions import Fraction
from math import ceil, floor

from reference.texts import shown

# How a table of names tells it, in a line of its own.
MARK = "# vrptw units:"
TOLD = re.compile(r'"?# ?vrptw units:(.*)\Z')
PAIR = re.compile(r"([a-z]+)=([0-9]{1,9}(?:/[0-9]{1,9})?)\Z")
# What is usual of each, which isn't told.
USUAL = {"scale": 1, "clock": 0, "speed": None, "demands": 1, "visits": 1, "detour": None, "off": None,
         "capacity": None}
# Those that may be parts of a whole.
PARTS = ("speed", "detour", "off", "capacity")
HOUR, DAY = 60, 24 * 60
UPWARDS = Context(prec=2, rounding=ROUND_UP)


def signed(tenths):
    return shown(tenths) if tenths >= 0 else "-" + shown(-tenths)


def decimal(value, digits):
    """A number with so many digits behind the point, rounded to the nearest."""
    tens = 10 ** digits
    whole = int(abs(value) * tens * 2 + 1) // 2
    sign = "-" if value < 0 and whole else ""
    return sign + ("%d.%0*d" % (whole // tens, digits, whole % tens) if digits else "%d" % whole)


def at_most(value):
    """A number of 0 or more in two digits, rounded up."""
    value = Fraction(value)
    return format(UPWARDS.divide(Decimal(value.numerator), Decimal(value.denominator)).normalize(), "f")


class Units:
    """`scale` units of the instance are one there. Where times are of the day, one there is a minute since midnight.
    With a speed in km/h one there is a minute of driving, by ways that are so many times (`detour`) as long as straight
    lines. Demands there are multiplied by two factors, of which the second one makes room for stops without demand:
    each of them has 1, and all of them less than the factor. Where numbers were rounded, a way is `off` by at most so
    many units of the instance. Where loads are counted otherwise the names' table has them, and this the capacity."""

    def __init__(self, scale=1, clock=0, speed=None, demands=1, visits=1, detour=None, off=None, capacity=None):
        self.scale, self.clock, self.speed, self.demands, self.visits = scale, clock, speed, demands, visits
        self.detour, self.off, self.capacity = detour, off, capacity
        self.is_plain = self.told() == USUAL

    def told(self):
        return {key: getattr(self, key) for key in USUAL}

    def but(self, **other):
        """The same units but for these."""
        return Units(**{**self.told(), **other})

    def words(self):
        """The words that tell it; nothing where the numbers are as they were."""
        return " ".join("%s=%s" % (key, value) for key, value in self.told().items() if value != USUAL[key])

    def line(self):
        """The line of a table that tells it; nothing where the numbers are as they were."""
        return "%s %s\n" % (MARK, self.words()) if self.words() else ""

    def exact(self):
        """The same units with times as numbers."""
        return self.but(clock=0)

    def of_places(self):
        """What one unit of a place is."""
        return self.scale, self.speed, self.detour

    def digits(self):
        """How many digits behind the point a tenth of a unit has there."""
        return len(str(self.scale - 1)) + 1 if self.scale > 1 else 1

    def number(self, tenths):
        """A number of the instance as it was there."""
        return signed(tenths) if self.scale == 1 else decimal(Fraction(tenths, 10 * self.scale), self.digits())

    def distance(self, tenths):
        """A distance or a cost: in kilometres where a speed is known."""
        return self.number(tenths) if self.speed is None else decimal(self.way(tenths), 1)

    def way(self, tenths):
        """A distance or a cost as a number, in what distances are shown in."""
        return Fraction(tenths, 10 * self.scale) * (1 if self.speed is None else self.speed / HOUR)

    def cut(self, way, is_up):
        """Such a number in words, with as many digits, rounded up or down."""
        whole, digits = way / self.last(), self.digits() if self.speed is None else 1
        return decimal((ceil(whole) if is_up else floor(whole)) * self.last(), digits)

    def last(self):
        """What the last digit of a distance counts."""
        return Fraction(1, 10 ** (self.digits() if self.speed is None else 1))

    def measure(self):
        """The word for what distances are counted in."""
        return "units" if self.speed is None else "km"

    def made_of(self):
        """Of what kilometres and minutes are made, in words; nothing where there are no kilometres."""
        if self.speed is None:
            return ""
        way = "" if self.detour is None else "straight lines times %g, " % float(self.detour)
        return way + "driven at %g km/h" % float(self.speed)

    def floor(self, tenths):
        """A moment cut to what is shown of it, so that no begin of service is shown after its due date."""
        return tenths - tenths % (10 * self.scale) if self.clock else tenths

    def moment(self, tenths):
        """A moment: hours and minutes of the day, and how many days later."""
        if not self.clock:
            return self.number(tenths)
        days, minutes = divmod(tenths // (10 * self.scale), DAY)
        return "%02d:%02d%s" % (*divmod(minutes, HOUR), " +%d" % days if days else "")

    def span(self, tenths):
        """A length of time: hours and minutes."""
        if not self.clock:
            return self.number(tenths)
        minutes = abs(tenths) // (10 * self.scale)
        return "%s%d:%02d" % ("-" if tenths < 0 and minutes else "", *divmod(minutes, HOUR))

    def whole(self, number):
        """A demand, a load or a capacity without what stops without demand take, or have room in."""
        return number // self.visits

    def load(self, number):
        """A demand, a load or a capacity as it was there; stops without demand count nothing."""
        return self.room(number, 1)

    def room(self, capacity, fleet):
        """What so many vehicles hold as it was there."""
        whole = fleet * self.whole(capacity)
        return "%d" % whole if self.demands == 1 else decimal(Fraction(whole, self.demands), len(str(self.demands)) - 1)

    def share(self, load, capacity, fleet=1):
        """A load and what so many vehicles hold, as whole numbers; the latter is at least 1."""
        return self.whole(load), max(1, fleet * self.whole(capacity))


PLAIN = Units()


def units_of(names):
    """What the names' table tells of units, or that numbers are as they were."""
    return PLAIN if names is None else getattr(names, "units", PLAIN)


def units_in(text):
    """What a table's line tells, where it has one."""
    for place, line in enumerate(text.lines, 1):
        found = TOLD.match(line.strip())
        if found:
            return read_line(text, place, found[1].strip('",;|\t '))
    return PLAIN


def read_line(text, place, told):
    """The units of a line; a wrong one is refused."""
    found = {}
    for word in told.split():
        pair = PAIR.match(word)
        is_number = pair and all(part.strip("0") for part in pair[2].split("/"))
        if not is_number or pair[1] not in USUAL or pair[1] in found:
            text.refuse(place, '"%s"' % word, "%s as convert writes them" % ", ".join(USUAL))
        value = Fraction(pair[2])
        if pair[1] not in PARTS and value.denominator != 1:
            text.refuse(place, '"%s"' % word, "a whole number")
        found[pair[1]] = value if pair[1] in PARTS else int(value)
    return Units(**found)
