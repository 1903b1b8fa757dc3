"""Readers of the program's two texts, apart from its own."""
import re

CANONICAL = re.compile(rb"(0|[1-9][0-9]*)\Z")
SIGNED = re.compile(rb"(0|-?[1-9][0-9]*)\Z")
TENTHS = re.compile(rb"(0|[1-9][0-9]{0,11})\.[0-9]\Z")
MOST_PRICE, MOST_LEAVES, MOST_DEPTH = 10 ** 12, 100_000, 600


class TextFault(Exception):
    """Why a text is no solution or no certificate, as the program names it."""


class Lines:
    def __init__(self, text):
        self.text, self.at, self.number = text, 0, 0

    def next(self):
        end = self.text.find(b"\n", self.at)
        if end < 0:
            raise TextFault("Truncated")
        line, self.at, self.number = self.text[self.at:end], end + 1, self.number + 1
        return line

    def is_done(self):
        return self.at == len(self.text)

    def bad(self):
        raise TextFault("BadLine line %d" % self.number)


def whole(word):
    """The value of a canonical number; of a long one the first digits, which are beyond each limit."""
    return int(word[:20])


def tenths(word):
    if not TENTHS.match(word):
        return None
    whole, digit = word.split(b".")
    return 10 * int(whole) + int(digit)


def shown(number):
    """Tenths as a text has them."""
    return "%d.%d" % divmod(number, 10)


def read_solution(text):
    """Routes and cost."""
    lines, routes = Lines(text), []
    while True:
        line = lines.next()
        head, colon, rest = line.partition(b":")
        if routes and line.startswith(b"Cost "):
            cost = tenths(line[5:])
            if cost is None:
                lines.bad()
            if not lines.is_done():
                raise TextFault("Extra")
            return routes, cost
        stops = rest.split(b" ")[1:]
        if (not colon or head != b"Route #%d" % (len(routes) + 1) or not stops or rest[:1] != b" "
                or any(not CANONICAL.match(word) or not 1 <= whole(word) <= 9999 for word in stops)):
            lines.bad()
        routes.append([whole(word) for word in stops])


class Certificate:
    # Those of versions 1 and 2 have neither sets nor rows.
    sets = rows = ()

    def __init__(self, version, name, count, neighbours, bound, tree):
        self.version, self.name, self.count = version, name, count
        self.neighbours, self.bound, self.tree = neighbours, bound, tree


def field(lines, word, low, high):
    line = lines.next()
    head, blank, rest = line.partition(b" ")
    if head != word or not blank or not CANONICAL.match(rest) or not low <= whole(rest) <= high:
        lines.bad()
    return whole(rest)


def read_head(lines, most_customers=400):
    """The lines behind the first one, up to the bound: name, customers, neighbours, bound."""
    line = lines.next()
    name = line[9:]
    if line[:9] != b"INSTANCE " or not 1 <= len(name) <= 32 or any(not 0x21 <= b <= 0x7E for b in name):
        lines.bad()
    count = field(lines, b"CUSTOMERS", 1, most_customers)
    neighbours = field(lines, b"NEIGHBOURS", 0, 15)
    line = lines.next()
    bound = tenths(line[6:]) if line[:6] == b"BOUND " else None
    if bound is None:
        lines.bad()
    return name, count, neighbours, bound


def read_end(lines):
    """The last line, and nothing behind it."""
    if lines.next() != b"END":
        lines.bad()
    if not lines.is_done():
        raise TextFault("Extra")


def read_certificate(text, most_customers=400):
    lines = Lines(text)
    first = lines.next()
    if first not in (b"VRPTW-CERT 1", b"VRPTW-CERT 2"):
        lines.bad()
    head = read_head(lines, most_customers)
    if lines.next() != b"TREE":
        lines.bad()
    tree = Nodes(lines, head[1]).tree([])
    read_end(lines)
    return Certificate(int(first[-1:]), *head, tree)


class Nodes:
    def __init__(self, lines, count):
        self.lines, self.count, self.leaves = lines, count, 0

    def tree(self, path):
        """One tree in preorder, the used child first; the path is the arcs that were decided."""
        line = self.lines.next()
        words = line.split(b" ")
        if words[0] == b"P":
            return self.leaf(words[1:])
        if words[0] != b"S":
            self.lines.bad()
        arc = self.arc(words[1:], path)
        used = self.tree(path + [arc])
        return ("S", arc, used, self.tree(path + [arc]))

    def leaf(self, words):
        return ("P", self.prices(words))

    def prices(self, words):
        if len(words) != self.count or any(not SIGNED.match(word) for word in words):
            self.lines.bad()
        prices = [whole(word) for word in words]
        if any(abs(price) > MOST_PRICE for price in prices):
            raise TextFault("PriceRange line %d" % self.lines.number)
        self.leaves += 1
        if self.leaves > MOST_LEAVES:
            raise TextFault("TooManyLeaves line %d" % self.lines.number)
        return prices

    def arc(self, words, path):
        if len(words) != 2 or any(not CANONICAL.match(word) for word in words):
            self.lines.bad()
        arc = (whole(words[0]), whole(words[1]))
        if arc[0] == arc[1] or max(arc) > self.count:
            raise TextFault("BadArc line %d" % self.lines.number)
        if arc in path:
            raise TextFault("ArcDecided line %d" % self.lines.number)
        if len(path) == MOST_DEPTH:
            raise TextFault("TooDeep line %d" % self.lines.number)
        return arc
