"""What the pictures of a plan have in common: the looks of routes, places for labels, and the sheet around them."""
from html import escape

from tools.units import units_of

EDGE, HEAD = 30, 34
# Eight colours that stay apart for those who see few of them; from the ninth route on dashes tell routes apart too.
COLOURS = ("#0072b2", "#d55e00", "#009e73", "#cc5fa0", "#332288", "#e09400", "#882255", "#4aa8dc")
DASHES = ("", "9 4", "3 3", "12 3 3 3", "6 2", "16 5")
# The side of the squares that labels are looked up by.
CELL = 48


def colour(route):
    return COLOURS[route % len(COLOURS)]


def dash(route):
    """The dashes of a route's line, as an attribute or as nothing."""
    told = DASHES[route // len(COLOURS) % len(DASHES)]
    return ' stroke-dasharray="%s"' % told if told else ""


def is_hollow(route):
    """Whether a route's spots and badge are white within: those of each second eight."""
    return route // len(COLOURS) % 2 == 1


def title(words):
    return "<title>%s</title>" % escape(words)


def plural(count, word):
    return "%d %s%s" % (count, word, "" if count == 1 else "s")


def short(name, most=18):
    return name if len(name) <= most else name[:most - 1] + "\u2026"


def customer_name(names, i):
    """What is put behind a customer's number where there are names, with its address."""
    if not names:
        return ""
    return ", ".join(["", names[i]] + ([names.address(i)] if getattr(names, "headings", None) and names.address(i)
                                       else []))


def of_route(number, parts):
    """Parts of a picture that belong to a route."""
    return ['<g class="route" data-route="%d">' % number, *parts, "</g>"]


def text(x, y, told, size, more=""):
    return '<text x="%.1f" y="%.1f" font-size="%s"%s>%s</text>' % (x, y, size, more and " " + more, escape(told))


class Places:
    """The boxes that are taken in a picture; a box is left, top, right and bottom."""

    def __init__(self, whole):
        self.whole, self.cells = whole, {}

    def cells_of(self, box):
        left, top, right, bottom = (int(edge // CELL) for edge in box)
        return [(x, y) for x in range(left, right + 1) for y in range(top, bottom + 1)]

    def take(self, box):
        for cell in self.cells_of(box):
            self.cells.setdefault(cell, []).append(box)

    def take_line(self, first, last, apart):
        """Takes a line, as small boxes along it that are so far apart."""
        (x, y), (to_x, to_y) = first, last
        count = int(((to_x - x) ** 2 + (to_y - y) ** 2) ** 0.5 / apart) + 1
        for part in range(1, count):
            at_x, at_y = x + (to_x - x) * part / count, y + (to_y - y) * part / count
            self.take((at_x - 2, at_y - 2, at_x + 2, at_y + 2))

    def hidden(self, box):
        """How much a box would hide, or lie outside of the picture."""
        inside = overlap(box, self.whole)
        outside = (box[2] - box[0]) * (box[3] - box[1]) - inside
        others = {other for cell in self.cells_of(box) for other in self.cells.get(cell, ())}
        return 9 * outside + sum(overlap(box, other) for other in others)

    def best(self, boxes):
        """Takes the box that hides least; the first of several."""
        found = min(boxes, key=self.hidden)
        self.take(found)
        return found


def overlap(a, b):
    """The area that two boxes share."""
    return max(0, min(a[2], b[2]) - max(a[0], b[0])) * max(0, min(a[3], b[3]) - max(a[1], b[1]))


def boxes_beside(x, y, wide, size, radius):
    """Where a number so wide may stand beside a spot, the places that are read best first."""
    near = radius + 1
    for left in (x + near, x - near - wide, x - wide / 2):
        for top in (y - near - 0.6 * size, y + near - 0.4 * size, y - near - size, y + near, y - size / 2):
            if left != x - wide / 2 or not y - near - size < top < y + near:
                yield left, top, left + wide, top + size


def round_step(most, least_power=0):
    """The greatest of 1, 2, 5, 10, 20 and so on that isn't above most."""
    return max([step * 10.0 ** power for power in range(least_power, 9) for step in (1, 2, 5)
                if step * 10.0 ** power <= most] or [10.0 ** least_power])


def told_of(instance, routes, cost, names):
    units = units_of(names)
    return "%s: %s, %s, cost %s%s" % (
        instance.name.decode(), plural(instance.count, "customer"), plural(len(routes), "route"), units.distance(cost),
        "" if units.speed is None else " " + units.measure())


def sheet(width, height, told, drawn):
    """A white picture with what is told above it, and wide enough for that."""
    width = max(width, round(2 * EDGE + 9.5 * len(told)))
    return ['<svg xmlns="http://www.w3.org/2000/svg" viewBox="0 0 %d %d" width="%d" height="%d" '
            'font-family="sans-serif">' % (2 * (width, height)), title(told),
            '<rect width="100%" height="100%" fill="white"/>', text(EDGE, 26, told, 17), *drawn, "</svg>"]
