"""Certificates that are read node by node, in lines of bytes, so that a tree is never held whole."""
import io
import re
import sys

from reference.set_texts import FIRST, FIRST_WITH_ROWS, MOST_ROW_PRICES, NodesWithSets, read_lists
from reference.texts import MOST_LEAVES, MOST_PRICE, Lines, Nodes, TextFault, read_end, read_head
from tools.plans import EMPTY, WITH_SETS, told_place
from tools.tool import INPUT, STREAM, Refused, reason_of, quoted, told_path

PRICE = rb" (?:0|-?(?:[1-9][0-9]{0,11}|1000000000000))"
PAIRS = rb"(?: [1-9][0-9]{0,3} [1-9][0-9]{0,12})*\Z"
SET_PRICES, ROW_PRICES = re.compile(b"M" + PAIRS), re.compile(b"Q" + PAIRS)
# What a line of a leaf without prices of sets, or of rows, is in a text that has such lines.
NO_SETS, NO_ROWS = b"M", b"Q"


class StreamedLines(Lines):
    """The lines of a file, one after the other, with the line read last."""

    def __init__(self, file):
        self.file, self.number, self.line, self.is_again = file, 0, b"", False

    def next(self):
        if self.is_again:
            self.is_again = False
            return self.line
        line = self.file.readline()
        # The end is told with the last line.
        self.number = max(1, self.number + bool(line))
        self.line = line[:-1] if line.endswith(b"\n") else line
        if not line.endswith(b"\n"):
            raise TextFault("Truncated")
        return self.line

    def is_done(self):
        line = self.file.readline()
        self.number, self.line = self.number + bool(line), line.rstrip(b"\n")
        return not line


class Leaf:
    """A leaf: the line of its prices, those of the prices of sets and rows where the text has them, and these prices with
    the numbers of their sets and rows."""
    __slots__ = ("line", "set_line", "sets", "row_line", "rows")

    def __init__(self, line, set_line=NO_SETS, sets=()):
        self.line, self.set_line, self.sets, self.row_line, self.rows = line, set_line, sets, NO_ROWS, ()


def set_line(priced):
    """The line of the prices of sets, by the numbers of the sets and the prices."""
    return b"".join([NO_SETS] + [b" %d %d" % pair for pair in priced])


def row_line(priced):
    """The line of the prices of rows, by the numbers of the rows and the prices."""
    return b"".join([NO_ROWS] + [b" %d %d" % pair for pair in priced])


class TreeText:
    """A certificate whose head is read, and whose nodes are read in preorder as they are asked for: each is an arc or a
    leaf. A fault of the text is refused with its line, as the readers of `reference` name it. What a file holds may be
    handed in."""

    def __init__(self, path, held=None):
        self.path, self.kind, self.sets, self.rows = told_path(path), b"", (), None
        self.lines = StreamedLines(opened(path) if held is None else io.BytesIO(held))
        # The arcs on the path to the next node, each with whether the child is the one where it is used.
        self.arcs, self.is_used = [], []
        self.is_whole = False
        # The line of the node that was read last.
        self.place = 0
        self.reading(self.read_head)

    def reading(self, read):
        """What a reader of `reference` reads; its fault is refused."""
        try:
            return read()
        except TextFault as fault:
            self.refuse_line(str(fault).split(" ")[0], self.lines.line)

    def refuse_line(self, name, line):
        """Refuses the line that was read last."""
        if not line and name == "Truncated" and not self.kind:
            self.refuse("an empty file", EMPTY["a certificate"])
        met = quoted(line.decode(errors="backslashreplace"))
        if b"\r" in line and name == "BadLine":
            self.refuse("%s with a carriage return behind it (%s)" % (met, name), "lines that end in a line feed alone")
        if name == "Truncated":
            met = "%s without a line feed behind it" % met if line else "the end"
        self.refuse("%s (%s)" % (met, name), told_place(WITH_SETS if self.kind in (FIRST, FIRST_WITH_ROWS) else "a certificate"))

    def refuse(self, met, wanted, line=None):
        raise Refused("%s: line %d: met %s, wanted %s" % (self.path, line or self.lines.number, met, wanted))

    def read_head(self):
        self.kind = self.lines.next()
        if self.kind not in (b"VRPTW-CERT 1", b"VRPTW-CERT 2", FIRST, FIRST_WITH_ROWS):
            self.lines.bad()
        self.version = 1 if self.kind == b"VRPTW-CERT 1" else 2
        self.name, self.count, self.neighbours, self.bound = read_head(self.lines)
        if self.kind in (FIRST, FIRST_WITH_ROWS):
            self.sets, self.rows = read_lists(self.lines, self.count, self.kind == FIRST_WITH_ROWS)
            self.nodes = NodesWithSets(self.lines, self.count, self.sets, self.rows)
        else:
            if self.lines.next() != b"TREE":
                self.lines.bad()
            self.nodes = Nodes(self.lines, self.count)
        self.prices = re.compile(b"P" + PRICE * self.count + rb"\Z")

    def node(self):
        """The next node: an arc, or a leaf. The last one has to be followed by the end of the text."""
        return self.reading(self.read_node)

    def read_node(self):
        line = self.lines.next()
        self.place = self.lines.number
        if line.startswith(b"P "):
            return self.leaf(line)
        words = line.split(b" ")
        if words[0] != b"S":
            self.lines.bad()
        arc = self.nodes.arc(words[1:], self.arcs)
        self.arcs.append(arc)
        self.is_used.append(True)
        return arc

    def leave(self):
        """Goes on behind a leaf, to the next node's path."""
        while self.is_used and not self.is_used[-1]:
            self.arcs.pop()
            self.is_used.pop()
        if self.is_used:
            self.is_used[-1] = False
        else:
            self.is_whole = True
            read_end(self.lines)

    def leaf(self, line):
        """A leaf by its lines; one that isn't as the solver writes it is looked at word by word."""
        if self.nodes.leaves == MOST_LEAVES or not self.prices.match(line):
            self.nodes.prices(line.split(b" ")[1:])
        self.nodes.leaves += 1
        leaf = Leaf(line)
        if self.kind in (FIRST, FIRST_WITH_ROWS):
            most = max(abs(int(word)) for word in line.split(b" ")[1:])
            leaf.sets = self.set_prices(most)
            leaf.set_line = self.lines.line
            if self.rows is not None:
                leaf.rows = self.row_prices(most + sum(price for _, price in leaf.sets))
                leaf.row_line = self.lines.line
        self.leave()
        return leaf

    def set_prices(self, most):
        """The prices of sets, from the line below those of the customers, of which this is the greatest."""
        return self.pairs(NO_SETS, SET_PRICES, len(self.sets), most, self.nodes.priced)

    def row_prices(self, most):
        """The prices of rows, from the line below those of sets; this is the greatest of the customers' prices with those
        of all sets."""
        return self.pairs(NO_ROWS, ROW_PRICES, len(self.rows), most, self.nodes.charging)

    def pairs(self, none, form, listed, most, by_words):
        """The numbers and prices of the next line; one that isn't as the solver writes it is looked at word by word."""
        line = self.lines.next()
        if line == none:
            return ()
        numbers = list(map(int, line.split(b" ")[1:])) if form.match(line) else []
        places, grains = numbers[::2], numbers[1::2]
        is_right = (numbers and places[-1] <= listed and sum(grains) + most <= MOST_PRICE
                    and all(first < then for first, then in zip(places, places[1:]))
                    and (none == NO_SETS or len(places) <= MOST_ROW_PRICES))
        if not is_right:
            self.lines.is_again = True
            by_words(most)
        return tuple(zip(places, grains))

    def rest(self):
        """All nodes that come."""
        while not self.is_whole:
            yield self.node()

    def tasks(self):
        """The leaves that come, as `tools/valuing.py` takes them."""
        while not self.is_whole:
            arcs, is_used = tuple(self.arcs), tuple(self.is_used)
            node = self.node()
            if isinstance(node, Leaf):
                yield arcs, is_used, node.line, node.sets, node.rows

    def below(self):
        """The nodes below the split that was read last, each with its path: the arcs, and whether each is used."""
        open_nodes = 2
        while open_nodes:
            path = tuple(self.arcs), tuple(self.is_used)
            node = self.node()
            open_nodes += -1 if isinstance(node, Leaf) else 1
            yield path, node


def opened(path):
    """A file's bytes, to be read line by line; standard input once."""
    if path == STREAM and (sys.stdin is None or sys.stdin.closed):
        raise Refused("%s: met a closed one, or it for a second file, wanted it open and once" % INPUT)
    try:
        if path != STREAM:
            return open(path, "rb")
        stream, sys.stdin = sys.stdin.buffer, None
        return stream
    except (OSError, ValueError) as fault:
        raise Refused("%s: %s" % (told_path(path), reason_of(fault)))
