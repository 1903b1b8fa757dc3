"""Certificates with rows: what routes are charged, bounds and texts, by all routes and all plans of a few customers."""
from functools import partial

from cases.row_cases import forged_row, row_certificate, rows_of, spoilt_row_line
from cases.row_rows import ROW_ROWS
from judges.judging_sets import drawn, judge_set_bounds, judge_set_check, judge_set_row, judge_set_text
from judges.kind import Kind, number_by, program_by, tools_by
from judges.running import demand
from reference.bounding import forgets, neighbour_lists
from reference.rows import PricedRow, charges

# How many stops the routes have whose charges are counted, how many there are at most, and how many rows.
STOPS, ROUTES, ROWS = 5, 3000, 4


def paired(row, route, lists):
    """How often a route is charged, by pairs of visits to the three: each with the next one, where the row is remembered
    at all stops between, and the first isn't in a pair already."""
    first, times = None, 0
    for place, v in enumerate(route):
        if v not in row.customers:
            continue
        if first is not None and all(any(i in lists[w] for i in row.customers) for w in route[first + 1:place]):
            times, first = times + 1, None
        else:
            first = place
    return times


def relaxed_lists(instance, lists):
    """Lists of a few stops that forget each customer between two visits of it, whatever load and time say."""
    rest = [[]]
    for route in rest:
        if len(route) < STOPS and len(rest) < ROUTES:
            rest += [route + [j] for j in range(1, instance.count + 1)
                     if route[-1:] != [j] and forgets(route, j, lists)]
    return rest


def judge_charges(_, random):
    """What rows charge relaxed routes of up to 5 stops: by bits and by pairs of visits, at most half of these, and just
    that half where the row is remembered everywhere."""
    instance = drawn(random, 3, 6)
    lists, came = neighbour_lists(instance, random.choice([0, 0, 1, 1, 2, 3, 8])), set()
    everywhere = [frozenset(range(1, instance.count + 1))] * (instance.count + 1)
    for number, row in enumerate(rows_of(random, instance.count)[:ROWS], 1):
        one = PricedRow(number, frozenset(row), 1)
        for route in relaxed_lists(instance, lists):
            times, visits = charges(one, route, lists), sum(v in row for v in route)
            demand(times == paired(one, route, lists), "%r charges %r %d times" % (row, route, times))
            demand(times <= visits // 2 == charges(one, route, everywhere), "%r charges %r too often" % (row, route))
            came.add("%d of %d" % (times, visits // 2))
    return ", ".join(sorted(came))


MADE = {"make": row_certificate, "spoil": spoilt_row_line, "forge": forged_row}
KINDS = {
    "charges": Kind("what rows charge relaxed routes of up to 5 stops, by bits and by pairs of visits", 40,
                    tools_by(judge_charges)),
    "row_bounds": Kind("bounds with prices of rows: below each plan's cost, the same by labels and by all routes", 24,
                       tools_by(partial(judge_set_bounds, make=row_certificate))),
    "row_texts": Kind("texts with rows, read and written, and with something wrong or forged, by recheck", 24,
                      tools_by(partial(judge_set_text, **MADE))),
    "row_checks": Kind("certificates with rows and plans, right or with something wrong, through check", 40,
                       program_by(partial(judge_set_check, **MADE))),
    "rows_by_hand": Kind("certificates with rows, and what recheck and the reader say of them, by hand", len(ROW_ROWS),
                         number_by(partial(judge_set_row, rows=ROW_ROWS)), is_fixed=True),
}
