"""A line below the customers of a table that has the sums of its columns."""
from tools.headings import NAMED
from tools.noting import OVER, Note
from tools.tool import number, quoted

# What such a line may be called, in the languages of the headings.
TOTALS = {"sum", "total", "totals", "grand total", "summe", "gesamt", "gesamtsumme", "insgesamt", "somme", "suma",
          "totaal", "som", "totale", "somma"}


def is_total(field):
    return field.lower().rstrip(": ") in TOTALS


def value_of(field):
    return number(field.replace(",", "."))


def signs_of(table, fields, called):
    """What tells of the numbers of a row that they are sums; nothing where one isn't the sum of its column, or where
    another field says something that no such line does. Where something above is no number, the line's name tells."""
    found = []
    for place, field in enumerate(fields):
        if not field or is_total(field):
            continue
        above = [value_of(row[place]) for _, row in table.rows[:-1] if row[place]]
        is_sum = bool(called) if None in above else sum(above) == value_of(field)
        if value_of(field) is None or not is_sum:
            return []
        found.append("it is called %s" % quoted(called[0]) if None in above
                     else "%s is the sum of its column" % quoted(field))
    return found


def without_total(table):
    """Takes the last row away where it has neither name nor place, and the sums of its columns; answers what is
    noted."""
    if len(table.rows) < 3:
        return []
    line, fields = table.rows[-1]
    called = [table.field(fields, column) for column in NAMED if table.field(fields, column)]
    if any(table.field(fields, column) for column in table.columns[:2]) or not all(map(is_total, called)):
        return []
    signs = signs_of(table, fields, called)
    if not signs:
        return []
    table.rows.pop()
    return [Note("line %d is passed over: it has no place, and %s" % (line, signs[0]), OVER)]
