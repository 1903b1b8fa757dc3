"""Pairs of leaves that can be one: at the split above them one set of prices has a value that reaches a cost."""
from reference.set_texts import MOST_ROW_PRICES
from tools.tree_texts import row_line, set_line
from tools.valuing import Valuers, prices_of, region

# What stands below a leaf.
NONE = (-1, -1)


class Tree:
    """The nodes of a tree in preorder, held whole: arcs, or the lines of leaves, those of customers, of sets and of rows;
    the last two are empty in a text without them."""

    def __init__(self, file):
        self.nodes, self.above, self.below = [], [], []
        # Splits that lack a child.
        waiting = []
        for line in file:
            if line.startswith((b"M", b"Q")):
                self.nodes[-1] = (*self.nodes[-1], line[:-1])
                continue
            at = len(self.nodes)
            if waiting:
                place = waiting[-1]
                self.below[place] = (at, -1) if self.below[place] == NONE else (self.below[place][0], at)
                waiting[len(waiting) - (self.below[place][1] >= 0):] = []
            self.above.append(place if at else -1)
            self.below.append(NONE)
            if line.startswith(b"S"):
                self.nodes.append(tuple(map(int, line.split(b" ")[1:])))
                waiting.append(at)
            else:
                self.nodes.append((line[:-1],))

    def is_leaf(self, at):
        return self.below[at] == NONE

    def pairs(self):
        """The splits of two leaves."""
        return [at for at in range(len(self.nodes)) if self.is_pair(at)]

    def is_pair(self, at):
        return not self.is_leaf(at) and all(map(self.is_leaf, self.below[at]))

    def task(self, at, cost):
        """The path to a split, the lines of its leaves, and the cost."""
        arcs, is_used, there = [], [], at
        while self.above[there] >= 0:
            over = self.above[there]
            arcs.append(self.nodes[over])
            is_used.append(self.below[over][0] == there)
            there = over
        return arcs, is_used, [self.nodes[one] for one in self.below[at]], cost

    def close(self, at, lines):
        """Makes a split of two leaves one leaf. Answers the split above it, where that has two leaves now."""
        self.nodes[at], self.below[at] = lines, NONE
        above = self.above[at]
        return [above] if above >= 0 and self.is_pair(above) else []

    def preorder(self):
        rest = [0]
        while rest:
            at = rest.pop()
            yield at
            if not self.is_leaf(at):
                rest += self.below[at][::-1]

    def write(self, file):
        for at in self.preorder():
            node = self.nodes[at]
            if not self.is_leaf(at):
                file.write(b"S %d %d\n" % node)
            else:
                file.write(b"".join(line + b"\n" for line in node if line))


def pairs_of(lines, place):
    """The prices of sets, or of rows, by their numbers; none where a text has no such lines."""
    words = [int(word) for word in lines[place].split(b" ")[1:]] if len(lines) > place else []
    return dict(zip(words[::2], words[1::2]))


def mean_of(here, there):
    """The mean of two prices of each set or row, as far as it is a whole grain."""
    means = ((number, (here.get(number, 0) + there.get(number, 0)) // 2) for number in sorted({*here, *there}))
    return [(number, price) for number, price in means if price]


def mean(first, other):
    """The mean of the lines of two leaves, cut to whole grains; of their rows those with the greatest prices, as many as
    a leaf may have."""
    prices = [(one + more) // 2 for one, more in zip(prices_of(first[0]), prices_of(other[0]))]
    rows = sorted(mean_of(pairs_of(first, 2), pairs_of(other, 2)), key=lambda pair: -pair[1])[:MOST_ROW_PRICES]
    lines = (b"P" + b"".join(b" %d" % price for price in prices),
             set_line(mean_of(pairs_of(first, 1), pairs_of(other, 1))), row_line(sorted(rows)))
    return lines[:len(first)]


def closing(task):
    """The lines of prices by which a leaf in the place of a split reaches the cost, or None: the first child's, the
    other's or their mean."""
    arcs, is_used, leaves, cost = task
    pricing, here = Valuers.here.pricing, region(Valuers.here.pricing.instance.count, arcs, is_used)
    for lines in dict.fromkeys([*leaves, mean(*leaves)]):
        priced = Valuers.here.priced(pairs_of(lines, 1).items(), pairs_of(lines, 2).items())
        found = pricing.value(here, prices_of(lines[0]), priced, cost)
        if found is not None and found >= cost:
            return lines
    return None


def pruned(tree, cost, valuers, telling):
    """Makes pairs of leaves one leaf, from the leaves up, wherever that reaches the cost. Answers how many."""
    count, ready = 0, tree.pairs()
    while ready:
        after = []
        tasks = (tree.task(at, cost) for at in ready)
        for at, lines in zip(ready, valuers.answers(closing, tasks)):
            if lines is not None:
                after += tree.close(at, lines)
                count += 1
            if telling.is_due():
                telling.tell("%d pairs of leaves are one" % count)
        ready = after
    return count
