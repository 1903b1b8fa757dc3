"""How the times of a table are read: as times of the day in several spellings, or as numbers; in silence never as both.
"""
import re
from fractions import Fraction

from tools.noting import DOUBT, Note
from tools.tool import quoted

DAY = 24 * 60
CLOCK = re.compile(r"([0-9]{1,3}):([0-5][0-9])(?::([0-5][0-9]))?(?:\s*(?:h|uhr|uur))?\Z", re.I)
HALF_DAYS = re.compile(r"(0?[1-9]|1[0-2])(?::([0-5][0-9]))?(?::([0-5][0-9]))?\s*([ap])\.?m\.?\Z", re.I)
# 8h30, 08h, 8 Uhr, 8.30 Uhr, 8u30.
WORDED = re.compile(r"([0-9]{1,2})(?:\.([0-5][0-9]))?\s*(?:h|u|uhr|uur|heures?|horas?|ore)(?:\s*([0-5][0-9]))?\Z", re.I)
# A length in minutes: 10 min, 10'.
MINUTES = re.compile(r"([0-9]{1,4})\s*(?:min\.?|minutes?|minuten|minuti|minutos|')\Z", re.I)
# What may be a time of the day: 8 or 8.30, with a zero lost 8.3, or without a sign between 0830.
HOURS = re.compile(r"([01]?[0-9]|2[0-4])(?:[.,]([0-5][0-9]))?\Z")
LOST = re.compile(r"([01]?[0-9]|2[0-3])[.,]([0-5])\Z")
DIGITS = re.compile(r"([01]?[0-9]|2[0-4])([0-5][0-9])\Z")
DECIMALS = re.compile(r"[^.,]*[.,][0-9]{3,}\Z")
# The ways by which a whole column may be read, and what is noted of them.
WAYS = {"hours": "times such as %s (line %d) are taken as times of the day, here %s",
        "part": "times such as %s (line %d) are taken as parts of a day, as spreadsheets keep them, here %s",
        "digits": "times such as %s (line %d) are taken as times of the day, here %s"}


def minutes_of(field):
    """The minutes since midnight of a time of the day that can be nothing else, or None."""
    clock, half, worded = (pattern.match(field) for pattern in (CLOCK, HALF_DAYS, WORDED))
    if clock:
        return 60 * int(clock[1]) + int(clock[2]) + Fraction(int(clock[3] or 0), 60)
    if half:
        hours = int(half[1]) % 12 + (12 if half[4].lower() == "p" else 0)
        return 60 * hours + int(half[2] or 0) + Fraction(int(half[3] or 0), 60)
    if worded and not (worded[2] and worded[3]):
        return Fraction(60 * int(worded[1]) + int(worded[2] or worded[3] or 0))
    return None


def length_of(field):
    """The minutes of a length of time that can be nothing else, or None."""
    found = MINUTES.match(field)
    return Fraction(int(found[1])) if found else minutes_of(field)


def to_the_second(minutes):
    return Fraction(round(60 * minutes), 60)


def readings(field, value):
    """What a field that spells a number may mean, in minutes, by the ways of reading it."""
    found, hours, lost, digits = {}, HOURS.match(field), LOST.match(field), DIGITS.match(field)
    if hours:
        found["hours"] = Fraction(60 * int(hours[1]) + int(hours[2] or 0))
    if lost:
        found["a zero lost"] = Fraction(60 * int(lost[1]) + 10 * int(lost[2]))
    if 0 < value <= 1:
        found["part"] = to_the_second(DAY * value)
    elif value.denominator > 1 and value <= 24 and not hours:
        found["a part of an hour"] = to_the_second(60 * value)
    if digits:
        found["digits"] = Fraction(60 * int(digits[1]) + int(digits[2]))
    found["number"] = value
    return found


def shown(minutes):
    """A moment as it is told of a reading."""
    seconds = int(60 * minutes)
    return "%02d:%02d" % divmod(seconds // 60, 60) + (":%02d" % (seconds % 60) if seconds % 60 else "")


class Times:
    """The fields of one or two columns of times, as triples of a line, a column and a cell with its number; those that
    can be nothing but times of the day by one function, and the others. What is 0 is the same by each reading."""

    def __init__(self, cells, sure, faults):
        self.faults, self.notes, self.clocks, self.others = faults, [], [], []
        for line, column, cell in cells:
            minutes = sure(cell) if cell else None
            if minutes is not None:
                cell.value, cell.is_clock = minutes, True
                self.clocks.append((line, column, cell))
            elif cell and cell.value:
                self.others.append((line, column, cell, readings(cell, cell.value)))

    def all_read(self, way):
        return all(way in may for _, _, _, may in self.others)

    def ways(self):
        """The ways by which all fields may be read; digits without a sign are times where all have four and some begin
        with 0."""
        fields = [cell for _, _, cell, _ in self.others]
        has_zeros = all(len(field) == 4 for field in fields) and any(field[0] == "0" for field in fields)
        return [way for way in WAYS if self.all_read(way) and (way != "digits" or has_zeros)]

    def looks_clock(self, is_day):
        """Whether times without a colon are likely to be of the day: in a column with others that are, or where all are
        at most 24 and one has hours and minutes, or where all are parts of a day, or digits of which some begin with 0.
        On a day of minutes hours and minutes alone do, and so do whole hours."""
        fields = [cell for _, _, cell, _ in self.others]
        has_decimals = any("." in field or "," in field for field in fields)
        is_small = all(0 < cell.value <= 24 for cell in fields)
        is_pointed = any(not field.isdigit() and (HOURS.match(field) or LOST.match(field)) for field in fields)
        return (bool(self.clocks) or is_pointed and (is_small or is_day) or is_small and is_day
                or has_decimals and self.all_read("part") or "digits" in self.ways())

    def doubted(self):
        """What is noted of numbers that look like times of the day beside others that don't."""
        found = [(quoted(cell), line) for line, _, cell, _ in self.others if not cell.isdigit()]
        looks = [HOURS.match(cell) for _, _, cell, _ in self.others if not cell.isdigit()]
        told = "doubtful: times such as %s (line %d) are taken as numbers, as others can be nothing else"
        return [Note(told % found[0], DOUBT)] if looks and all(looks) else []

    def take(self, way):
        """Reads all fields in one way, which is noted."""
        line, _, cell, may = self.others[0]
        self.notes.append(Note(WAYS[way] % (quoted(cell), line, shown(may[way]))))
        for _, _, cell, may in self.others:
            cell.value, cell.is_clock = may[way], True

    def usual(self):
        """The way in which most fields may be read."""
        return max(WAYS, key=lambda way: sum(way in may for _, _, _, may in self.others))

    def doubt(self, wanted, told):
        """Refuses what may be read in two ways, first what can't be read as most are; what is a number alone is
        noted."""
        sure, usual = [], self.usual()
        for line, column, cell, may in self.others:
            if len(set(may.values())) > 1:
                self.faults.add(line, column, "%s, which may be %s" % (quoted(cell), told(may)), wanted, usual in may)
            else:
                sure.append((cell, line))
        if sure and self.clocks:
            self.notes.append(Note("numbers such as %s (line %d) beside times of the day are minutes" % sure[0]))


def both(may):
    """The readings of a field as words."""
    times = [shown(value) for way, value in may.items() if way != "number"]
    return "%s or the number %g" % (", ".join(dict.fromkeys(times)), may["number"])


def both_lengths(may):
    hours = [value for way, value in may.items() if way != "number"] + [to_the_second(60 * may["number"])]
    times = ["%s hours" % shown(value) for value in hours]
    return "%s or %g minutes" % (", ".join(dict.fromkeys(times)), may["number"])


def read_windows(cells, faults, is_day, as_numbers):
    """Reads ready times and due dates together; answers whether they are times of the day, and what is noted."""
    found = Times(cells, minutes_of, faults)
    if not found.others or as_numbers or not found.looks_clock(is_day):
        return bool(found.clocks), [] if as_numbers else found.doubted()
    ways = found.ways()
    if len(ways) == 1:
        found.take(ways[0])
        return True, found.notes
    found.doubt("all in one spelling, as 08:30, or --times-as-numbers", both)
    return bool(found.clocks), found.notes


def read_lengths(cells, faults, is_clock, as_numbers):
    """Reads services, which are minutes unless they have a colon or a word. Beside times of the day such as have many
    decimals and are below 1 are parts of a day; with few decimals they may be of an hour. Answers what is noted."""
    found = Times(cells, length_of, faults)
    fields = [cell for _, _, cell, _ in found.others]
    if not fields or as_numbers:
        return []
    is_part = is_clock and found.all_read("part") and not all(field.isdigit() for field in fields)
    if is_part and not found.clocks and all(map(DECIMALS.match, fields)):
        found.take("part")
    elif is_part or found.clocks:
        found.doubt("all in one spelling, as 0:15, or --times-as-numbers", both_lengths)
    return found.notes
