"""Reader and writer of certificates with sets, and with sets and rows.

    VRPTW-SETS 1
    INSTANCE name       these four as in version 2
    CUSTOMERS n
    NEIGHBOURS k
    BOUND x.y
    S need c1 c2 ..     for each set, of which there may be none
    TREE
    ..                  the nodes in preorder
    END

A set has a need of 1 to 4,000,000 and at least two customers in increasing order, all canonical numbers. Sets are
numbered from 1; there are at most 1,000. A split is that of version 2. A leaf has two lines: the prices of version 2,
and directly below them `M s1 m1 s2 m2 ..` with the number and the price of each set that has one, a canonical number of
1 to 10^12, in increasing order of the sets; `M` alone where none has one. All prices of sets together and that of any
customer, without its sign, are at most 10^12. Items have one blank between, and lines end
in a line feed, so each certificate has one text. Faults are those of version 2, and with the line, in this order:

    BadLine         before TREE neither TREE nor S with three canonical numbers or more
    NeedRange       S with a need out of range
    BadSet          S whose customers don't increase, or one that is 0 or above n
    TooManySets     else S after 1,000 sets
    BadLine         below a leaf's prices no M with canonical numbers in pairs
    BadSet          M whose sets don't increase, or one that is 0 or above their number
    PriceRange      M with a price out of range, or prices too great beside that of a customer

A certificate with rows begins with `VRPTW-ROWS 1`. Behind the lines of sets it has a line `R a b c` for each row: three
customers, increasing, the rows in increasing order, none twice, at most 1,000. A leaf has a third line below the second
one, `Q r1 q1 r2 q2 ..`, for rows what M is for sets; at most 256 rows have a price at a leaf, and their prices count in
the range of those of sets and customers. Its faults are those above, and

    BadLine         behind the sets neither TREE nor R with three canonical numbers
    BadRow          R whose customers don't increase, or one that is 0 or above n, or a row that isn't above the one before
    TooManyRows     else R after 1,000 rows
    BadLine         below the prices of sets no Q with canonical numbers in pairs
    BadRow          Q whose rows don't increase, or one that is 0 or above their number
    TooManyRows     Q with more than 256 rows
    PriceRange      Q with a price out of range, or prices too great beside those of sets and that of a customer
"""
from collections import namedtuple

from reference.bounding import PricedSet, sets_in
from reference.rows import PricedRow, rows_in
from reference.texts import (CANONICAL, MOST_PRICE, Certificate, Lines, Nodes, TextFault, read_certificate, read_end,
                             read_head, shown, whole)

FIRST, FIRST_WITH_ROWS = b"VRPTW-SETS 1", b"VRPTW-ROWS 1"
# What 400 customers with demands of 10,000 need where a vehicle holds 1.
MOST_NEED, MOST_SETS = 4_000_000, 1000
MOST_ROWS, MOST_ROW_PRICES = 1000, 256
# The line of the first set.
FIRST_SET = 6

ListedSet = namedtuple("ListedSet", "need customers")


class SetCertificate(Certificate):
    """A certificate with its sets in order, and its rows where it may have some; leaves have the values of
    version 2."""

    def __init__(self, name, count, neighbours, bound, sets, tree, rows=None):
        super().__init__(2, name, count, neighbours, bound, tree)
        self.sets, self.rows, self.has_rows = sets, rows or [], rows is not None


def is_of_sets(text):
    return text.split(b"\n", 1)[0] in (FIRST, FIRST_WITH_ROWS)


def read_either(text):
    """A certificate with sets, with sets and rows, or without, by its first line."""
    return read_with_sets(text) if is_of_sets(text) else read_certificate(text)


def read_with_sets(text):
    lines = Lines(text)
    first = lines.next()
    if first not in (FIRST, FIRST_WITH_ROWS):
        lines.bad()
    head = read_head(lines)
    sets, rows = read_lists(lines, head[1], first == FIRST_WITH_ROWS)
    tree = NodesWithSets(lines, head[1], sets, rows).tree([])
    read_end(lines)
    return SetCertificate(*head, sets, tree, rows)


def read_lists(lines, count, has_rows):
    """The sets and the rows, up to the line that begins the tree; None in place of rows where there can't be any."""
    sets, words = read_sets(lines, count)
    rows = read_rows(lines, words, count) if has_rows else None
    if not has_rows and words != [b"TREE"]:
        lines.bad()
    return sets, rows


def read_sets(lines, count):
    """The sets, and the words of the line behind them."""
    sets = []
    while True:
        word, *words = lines.next().split(b" ")
        if word != b"S":
            return sets, [word, *words]
        if len(words) < 3:
            lines.bad()
        need, *customers = numbers(lines, words)
        if not 1 <= need <= MOST_NEED:
            fault(lines, "NeedRange")
        demand_rising(lines, customers, count)
        if len(sets) == MOST_SETS:
            fault(lines, "TooManySets")
        sets.append(ListedSet(need, tuple(customers)))


def read_rows(lines, words, count):
    """The rows, from a line with these words up to the line that begins the tree."""
    rows = []
    while words != [b"TREE"]:
        if words[0] != b"R" or len(words) != 4:
            lines.bad()
        row = tuple(numbers(lines, words[1:]))
        demand_rising(lines, list(row), count, "BadRow")
        if rows and row <= rows[-1]:
            fault(lines, "BadRow")
        if len(rows) == MOST_ROWS:
            fault(lines, "TooManyRows")
        rows.append(row)
        words = lines.next().split(b" ")
    return rows


def numbers(lines, words):
    """Canonical numbers."""
    if any(not CANONICAL.match(word) for word in words):
        lines.bad()
    return [whole(word) for word in words]


def demand_rising(lines, found, most, name="BadSet"):
    """Numbers of customers, sets or rows: from 1 to the most, each above the one before."""
    if any(not before < number <= most for before, number in zip([0] + found, found)):
        fault(lines, name)


def fault(lines, name):
    raise TextFault("%s line %d" % (name, lines.number))


class NodesWithSets(Nodes):
    """The nodes of a tree whose leaves have prices of sets, too, and of rows where there are not None."""

    def __init__(self, lines, count, sets, rows=None):
        super().__init__(lines, count)
        self.sets = [(frozenset(one.customers), one.need) for one in sets]
        self.rows = None if rows is None else [frozenset(row) for row in rows]

    def leaf(self, words):
        kind, prices = super().leaf(words)
        most = max(abs(price) for price in prices)
        priced = self.priced(most)
        if self.rows is not None:
            priced += self.charging(most + sum(one.price for one in priced))
        return kind, prices, priced

    def pairs(self, letter, most, name):
        """The numbers and prices of a line with this letter."""
        word, *words = self.lines.next().split(b" ")
        if word != letter or len(words) % 2:
            self.lines.bad()
        found = numbers(self.lines, words)
        demand_rising(self.lines, found[::2], most, name)
        return found[::2], found[1::2]

    def demand_range(self, prices, most):
        """Prices from 1 on, which together with this sum are no more than the greatest price."""
        if any(price < 1 for price in prices) or sum(prices) + most > MOST_PRICE:
            fault(self.lines, "PriceRange")

    def priced(self, most):
        """The sets that have a price, from the line below the customers' prices, of which this is the greatest."""
        places, prices = self.pairs(b"M", len(self.sets), "BadSet")
        self.demand_range(prices, most)
        return tuple(PricedSet(number, *self.sets[number - 1], price) for number, price in zip(places, prices))

    def charging(self, most):
        """The rows that have a price, from the line below those of sets; this is the greatest of the customers' prices
        with those of all sets."""
        places, prices = self.pairs(b"Q", len(self.rows), "BadRow")
        if len(places) > MOST_ROW_PRICES:
            fault(self.lines, "TooManyRows")
        self.demand_range(prices, most)
        return tuple(PricedRow(number, self.rows[number - 1], price) for number, price in zip(places, prices))


def written(found):
    """The text of a certificate with sets, or with sets and rows."""
    lines = [(FIRST_WITH_ROWS if found.has_rows else FIRST).decode(), "INSTANCE " + found.name.decode(),
             "CUSTOMERS %d" % found.count, "NEIGHBOURS %d" % found.neighbours, "BOUND " + shown(found.bound)]
    lines += [spaced("S", one.need, *one.customers) for one in found.sets] + [spaced("R", *row) for row in found.rows]
    return "".join(line + "\n" for line in lines + ["TREE"] + node_lines(found.tree, found.has_rows) + ["END"]).encode()


def spaced(*items):
    return " ".join(str(item) for item in items)


def node_lines(tree, has_rows=False):
    """The lines of a tree's nodes."""
    if tree[0] == "P":
        lines = [spaced("P", *tree[1]), spaced("M", *pairs_of(sets_in(tree[2])))]
        return lines + ([spaced("Q", *pairs_of(rows_in(tree[2])))] if has_rows else [])
    return [spaced("S", *tree[1])] + node_lines(tree[2], has_rows) + node_lines(tree[3], has_rows)


def pairs_of(priced):
    return [number for one in priced for number in (one.number, one.price)]
