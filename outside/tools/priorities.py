"""The priorities of customers, a further column of a table: who has a greater one is served before others."""
from fractions import Fraction

from tools.table import DECIMAL_COMMA, decimal
from tools.tool import Refused, number, quoted

PRIORITY = "priority"
WANTED = "a priority, a number"


def judge_priorities(table, faults):
    """Keeps each field of the column that is no number as a fault; an empty one is 0."""
    if PRIORITY not in table.heading:
        return
    for line, fields in table.rows:
        field = table.field(fields, PRIORITY)
        with faults.kept(line, PRIORITY):
            if field and decimal(table, line, field).value is None:
                faults.add(line, PRIORITY, quoted(field), WANTED)


def priorities_of(names):
    """The priorities by number, from the depot's place on; None where no column tells any."""
    if PRIORITY not in names.headings:
        return None
    column = names.headings.index(PRIORITY)
    return [Fraction(0), *(value_of(names, i, names.further[i][column]) for i in range(1, len(names)))]


def value_of(names, i, field):
    found = DECIMAL_COMMA.match(field)
    value = number(found[1] + "." + found[2] if found else field) if field else Fraction(0)
    if value is None:
        raise Refused("the table of names: met %s in %s of %s, wanted %s" % (
            quoted(field), quoted(PRIORITY), names.called(i), WANTED))
    return value
