"""What a plan's cost is elsewhere, by each usual rounding, and which of them gives a cost that is told there."""
from decimal import ROUND_DOWN, ROUND_HALF_UP, Context, Decimal
from fractions import Fraction
from math import isqrt

from reference.texts import shown
from tools.tool import number

EXACT = Context(prec=60)
UNITS = ("whole unit", "tenth", "hundredth", "thousandth", "4th digit", "5th digit", "6th digit")
# Of a cost with more digits the last ones are those of a machine's arithmetic.
MOST_DIGITS = len(UNITS) - 1


def truncated(square):
    return isqrt(int(square))


def nearest(square):
    return (isqrt(int(4 * square)) + 1) // 2


def above(square):
    return isqrt(-int(-square // 1) - 1) + 1 if square else 0


ROUNDINGS = (("truncated to a", truncated), ("rounded to the nearest", nearest), ("rounded up to a", above))


def squares(instance, routes, scale):
    """The square of each arc's length there, where coordinates aren't multiplied by the scale."""
    for route in routes:
        stops = [instance.rows[i] for i in [0] + route + [0]]
        for a, b in zip(stops, stops[1:]):
            yield Fraction((a[0] - b[0]) ** 2 + (a[1] - b[1]) ** 2, scale ** 2)


def cut(value, digits, mode):
    return number(str(value.quantize(Decimal(1).scaleb(-digits), rounding=mode, context=EXACT)))


def costs(lengths, digits):
    """What the cost is there by each rounding, with its words; the sum is told with so many digits behind a point."""
    whole = sum((EXACT.sqrt(EXACT.divide(Decimal(length.numerator), Decimal(length.denominator)))
                 for length in lengths), Decimal(0))
    nearest_sum, cut_sum = cut(whole, digits, ROUND_HALF_UP), cut(whole, digits, ROUND_DOWN)
    yield nearest_sum, "the exact sum is rounded to a %s" % UNITS[digits]
    if cut_sum != nearest_sum:
        yield cut_sum, "the exact sum is truncated to a %s" % UNITS[digits]
    for place in range(4):
        for words, of_square in ROUNDINGS:
            total = sum(of_square(100 ** place * length) for length in lengths)
            told = "each arc is %s %s" % (words, UNITS[place])
            yield Fraction(total, 10 ** place), told
            if place:
                yield Fraction(total), "%s, and these are counted" % told


def compared(instance, routes, word, scale, cost):
    """What is to be said of the cost that is told there beside ours in tenths; None where both are the same."""
    there, digits = number(word), len(word.lower().partition("e")[0].partition(".")[2])
    if 10 * scale * there == cost:
        return None
    if there == cost:
        return "the cost there counts tenths, %s of them, and is %s here: the same" % (word, shown(cost))
    if digits > MOST_DIGITS:
        there, digits = Fraction(round(there * 10 ** MOST_DIGITS), 10 ** MOST_DIGITS), MOST_DIGITS
    fits = [told for value, told in costs(list(squares(instance, routes, scale)), digits) if value == there]
    reason = ("what fits is that there %s" % "; or ".join(fits) if fits else
              "no usual rounding of these arcs gives that one, so it is of another measure or another instance")
    return "the cost is %s there and %s here, where each arc is truncated to a tenth: %s" % (word, shown(cost), reason)
