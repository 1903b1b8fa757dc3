"""Cost and bound of a proof over time as a picture: what lies between them is the gap."""
from tools.batch_table import percent, tenths_of
from tools.drawing import EDGE, HEAD, plural, round_step, sheet, text

WIDE, HIGH, LEFT, RIGHT = 760, 360, 84, 70
# The colours of cost, bound and gap.
COST, BOUND, GAP = "#d55e00", "#0072b2", "#e8eef4"
# Units of time, the largest that two of are in the picture.
UNITS = ((86400, "days"), (3600, "hours"), (60, "minutes"), (1, "seconds"))


class Frame:
    """Where a moment and a cost stand."""

    def __init__(self, rows):
        self.last = max(rows[-1].seconds, 1.0)
        self.unit, self.name = next((unit for unit in UNITS if self.last >= 2 * unit[0]), UNITS[-1])
        found = [tenths_of(word) for row in rows for word in (row.cost, row.bound) if word]
        low, high = min(found), max(found)
        room = max(5, (high - low) / 20)
        self.low, self.high = max(0, low - room), high + room

    def x(self, seconds):
        return LEFT + (WIDE - LEFT - RIGHT) * seconds / self.last

    def y(self, value):
        return HEAD + EDGE + HIGH * (self.high - value) / (self.high - self.low)


def stairs(frame, rows, name):
    """The points of a line that changes at the end of each round and stays until the next one."""
    points = []
    for row in rows:
        if getattr(row, name):
            y = frame.y(tenths_of(getattr(row, name)))
            points += [(frame.x(row.seconds), points[-1][1])] if points else []
            points.append((frame.x(row.seconds), y))
    return points


def path(points):
    return "M" + "L".join("%.1f %.1f" % point for point in points)


def axes(frame):
    """Both axes with round values."""
    bottom = HEAD + EDGE + HIGH
    yield '<g stroke="#444" stroke-width="0.8" fill="none"><path d="M%d %dV%dH%d"/>' % (
        LEFT, HEAD + EDGE, bottom, WIDE - RIGHT)
    words, step = [], round_step(frame.last / frame.unit / 4)
    step = min(step, frame.last / frame.unit) or 1
    for mark in range(int(frame.last / frame.unit / step) + 1):
        x = frame.x(mark * step * frame.unit)
        yield '<path d="M%.1f %dv4"/>' % (x, bottom)
        words.append(text(x, bottom + 17, "%g" % (mark * step), 11, 'text-anchor="middle"'))
    step = max(1, round(10 * round_step((frame.high - frame.low) / 60, -1)))
    for value in range(-(-int(frame.low) // step) * step, int(frame.high) + 1, step):
        yield '<path d="M%d %.1fh-4"/>' % (LEFT, frame.y(value))
        words.append(text(LEFT - 8, frame.y(value) + 4, "%d.%d" % divmod(value, 10), 11, 'text-anchor="end"'))
    yield "</g>"
    yield from words
    yield text(WIDE - RIGHT, bottom + 34, frame.name, 11, 'text-anchor="end"')


def picture(name, rows):
    """The lines of the picture of rounds, of which there is one at least."""
    frame, last = Frame(rows), rows[-1]
    cost, bound = (stairs(frame, rows, word) for word in ("cost", "bound"))
    drawn = []
    if cost and bound:
        below = [point for point in bound if point[0] >= cost[0][0]] or bound[-1:]
        drawn.append('<path d="%sZ" fill="%s"/>' % (path(cost + below[::-1]), GAP))
    for points, word, colour in ((cost, "cost", COST), (bound, "bound", BOUND)):
        if points:
            drawn.append('<path d="%s" fill="none" stroke="%s" stroke-width="1.8" stroke-linejoin="round"/>' % (
                path(points), colour))
            drawn += ['<circle cx="%.1f" cy="%.1f" r="2.4" fill="%s"/>' % (*point, colour) for point in points[::2]]
            shift = -4 if word == "cost" else 12
            drawn.append(text(points[-1][0] + 8, points[-1][1] + shift, word, 12, 'fill="%s"' % colour))
    told = "%s: %s; bound %s after %s" % (
        name, "cost %s, gap %s" % (last.cost, percent(last.gap())) if last.cost else "no plan", last.bound,
        plural(last.number, "round"))
    return sheet(WIDE, HEAD + EDGE + HIGH + 50, told, drawn + list(axes(frame)))
