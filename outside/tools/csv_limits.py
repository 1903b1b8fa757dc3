"""Which numbers of a table are beyond the limits, told as they stand there."""
from tools.csv_values import PLACE, TIMES, WINDOW
from tools.layouts import HINT, MOST_COORDINATE, MOST_DEMAND, MOST_TIME
from tools.tool import bare, quoted

WHATS = {"x": "x", "y": "y", "demand": "a demand", "ready": "a ready time", "due": "a due date",
         "service": "a service time"}
LIMITS = {**{axis: (-MOST_COORDINATE, MOST_COORDINATE) for axis in PLACE}, "demand": (0, MOST_DEMAND),
          **{column: (0, MOST_TIME) for column in TIMES}}


def judge_cell(faults, line, column, cell, scale):
    """Keeps a number that isn't whole by a scale that is given, or not within the limits, as a fault."""
    low, high = LIMITS[column]
    by = " by --scale %d" % scale if scale and scale > 1 else ""
    if cell.value is None:
        return
    if scale and (cell.value * scale).denominator > 1:
        faults.add(line, column, quoted(cell), "%s, a whole number%s" % (WHATS[column], by or HINT))
    elif not low <= cell.value * (scale or 1) <= high:
        faults.add(line, column, quoted(cell), "%s of %s to %s%s" % (
            WHATS[column], bare(low / (scale or 1)), bare(high / (scale or 1)), by))


def judge_extent(values, scale):
    """Keeps a place that is too far from the least one as a fault."""
    for axis in PLACE:
        found = [(row[axis].value, line, row[axis]) for line, row in values.rows
                 if row[axis].value is not None and not values.faults.has(line, [axis])]
        least = min([value for value, _, _ in found] + [0])
        for value, line, cell in found:
            if (value - least) * scale > MOST_COORDINATE:
                values.faults.add(line, axis, "%s, %s above the least one" % (quoted(cell), bare(value - least)),
                                  "at most %s" % bare(MOST_COORDINATE / scale))


def judge_depot(values):
    """Keeps a demand or a service of the depot as a fault."""
    line, row = values.rows[0]
    for column, what in (("demand", "demand"), ("service", "service")):
        if row[column].value:
            values.faults.add(line, column, "%s at the depot" % quoted(row[column]), "no %s there" % what)


def judge_rows(values, quantities):
    """Keeps all numbers that no scale, or not the given one, makes right as faults, and windows that are reversed."""
    given, capacity = quantities.scale if quantities.is_scaled else None, quantities.capacity_given or 0
    judged = [column for column in LIMITS if column in values.table.columns]
    for line, row in values.rows:
        for column in judged:
            # A demand above the limit may be within a capacity above it.
            if column != "demand" or row[column].value is None or not 0 <= row[column].value <= capacity:
                judge_cell(values.faults, line, column, row[column], None if column == "demand" else given)
        ready, due = row["ready"], row["due"]
        # What an empty field has of the depot may be at fault there.
        is_wrong = values.faults.has(line, WINDOW) or values.faults.has(values.rows[0][0], values.filled[line])
        is_read = None not in (ready.value, due.value) and not is_wrong
        if is_read and due.value < ready.value:
            values.faults.add(line, "due", "%s, which is before %s" % (quoted(due), quoted(ready)),
                              "a due date that isn't before the ready time")
    if quantities.horizon is not None and quantities.horizon.last * (given or 1) > MOST_TIME:
        values.faults.add(values.rows[0][0], None, "%s by --horizon" % quoted(values.rows[0][1]["due"]),
                          "at most %s" % bare(MOST_TIME / (given or 1)))
    judge_depot(values)
    if not values.is_projected:
        judge_extent(values, given or 1)
