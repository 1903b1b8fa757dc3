"""The tree of a certificate, and parts that grew from it, as one tree: all texts are gone through side by side, node by
node, and what stands at a leaf of the tree is written before the next one is read."""
from reference.set_texts import FIRST, FIRST_WITH_ROWS
from tools.tree_texts import Leaf, row_line, set_line
from tools.valuing import value_of

# How many leaves are valued at once, and how many bytes wait for that, before they are written.
MOST_ASKED, MOST_HELD = 2000, 16_000_000
NEVER = -1


class Lists:
    """The sets, or the rows, of all texts in one list, in which each text's have other numbers."""

    def __init__(self, listed, by_text):
        self.listed, self.numbers, self.is_same = listed, {}, {}
        places = {one: place for place, one in enumerate(listed, 1)}
        for text, ones in by_text:
            numbers = [0] + [places[one] for one in ones]
            self.numbers[text], self.is_same[text] = numbers, numbers == list(range(len(numbers)))

    def priced(self, text, pairs):
        """The numbers and prices of a text's leaf, by the joined list."""
        if self.is_same[text]:
            return pairs
        numbers, prices = self.numbers[text], {}
        for place, price in pairs:
            # A text may list a set twice.
            prices[numbers[place]] = prices.get(numbers[place], 0) + price
        return tuple(sorted(prices.items()))


def lists_of_sets(texts):
    """The sets of all texts, the tree's first."""
    listed = list(dict.fromkeys(one for text in texts for one in text.sets))
    return Lists(listed, [(text, text.sets) for text in texts])


def lists_of_rows(texts):
    """The rows of all texts, in increasing order."""
    listed = sorted({row for text in texts for row in text.rows or ()})
    return Lists(listed, [(text, text.rows or ()) for text in texts])


class Grown:
    """What a text has in the place of a leaf of the tree: its lines, and what values its leaves by."""

    def __init__(self):
        self.lines, self.tasks = [], []

    def __eq__(self, other):
        return self.lines == other.lines

    def bound(self, values):
        """The least of the values of its leaves, which come in their order."""
        found = [next(values) for _ in self.tasks]
        return NEVER if None in found else min(found)


class Joining:
    """The joined tree of texts, the first of which is the tree that the others grew from."""

    def __init__(self, texts, valuers, takes_changes=False):
        self.tree, self.parts, self.takes_changes = texts[0], texts[1:], takes_changes
        self.texts, self.valuers = texts, valuers
        self.sets, self.rows = lists_of_sets(texts), lists_of_rows(texts)
        self.has_rows = any(text.kind == FIRST_WITH_ROWS for text in texts)
        self.has_sets = self.has_rows or any(text.kind == FIRST for text in texts)
        # Texts whose whole tree is the joined one so far, and what is counted.
        self.alike, self.leaves, self.valued, self.unvalued = list(texts), 0, 0, 0

    def node_lines(self, text, node):
        """The lines of a node of a text."""
        if not isinstance(node, Leaf):
            return b"S %d %d\n" % node
        self.leaves += 1
        lines = node.line + b"\n"
        if self.has_sets:
            lines += (node.set_line if self.sets.is_same[text] else set_line(self.priced_sets(text, node))) + b"\n"
        if self.has_rows:
            lines += (node.row_line if self.rows.is_same[text] else row_line(self.priced_rows(text, node))) + b"\n"
        return lines

    def priced_sets(self, text, leaf):
        return self.sets.priced(text, leaf.sets)

    def priced_rows(self, text, leaf):
        return self.rows.priced(text, leaf.rows)

    def pieces(self):
        """What is written, in order: bytes, or what several texts have in the place of a leaf, one of which is to be
        taken."""
        tree = self.tree
        while not tree.is_whole:
            path = tuple(tree.arcs), tuple(tree.is_used)
            node = tree.node()
            found = [part.node() for part in self.parts]
            if isinstance(node, Leaf):
                yield from self.at_leaf(path, node, found)
                continue
            for part, other in zip(self.parts, found):
                if other != node:
                    met = "a leaf" if isinstance(other, Leaf) else '"S %d %d"' % other
                    part.refuse(met, '"S %d %d", as in line %d of %s' % (*node, tree.place, tree.path), part.place)
            yield self.node_lines(tree, node)

    def at_leaf(self, path, leaf, found):
        """What stands in the place of a leaf of the tree: what one part has grown there, or the best prices."""
        split = [(part, node) for part, node in zip(self.parts, found) if not isinstance(node, Leaf)]
        others = [] if split else [
            (part, node) for part, node in zip(self.parts, found) if not self.are_same(leaf, part, node)]
        if not split and not others:
            yield self.node_lines(self.tree, leaf)
            return
        alone = split or (others if self.takes_changes else [])
        if len(alone) == 1:
            part, node = alone[0]
            self.alike = [text for text in self.alike if text is part]
            yield self.node_lines(part, node)
            for _, one in part.below() if split else ():
                yield self.node_lines(part, one)
            return
        texts = zip(self.texts, [leaf] + found) if not split else split
        grown = [(text, self.grown(text, path, node)) for text, node in texts]
        others = []
        for _, one in grown:
            if one not in others:
                others.append(one)
        if len(others) > 1:
            yield Question(self, grown, others)
        else:
            self.take(grown, others[0])
            yield b"".join(others[0].lines)

    def are_same(self, leaf, part, node):
        """Whether a part has the tree's prices at a leaf."""
        return (node.line == leaf.line and self.priced_sets(part, node) == self.priced_sets(self.tree, leaf)
                and self.priced_rows(part, node) == self.priced_rows(self.tree, leaf))

    def grown(self, text, path, node):
        """What a text has in the place of a leaf. How many leaves it has counts only once it is taken."""
        found, leaves = Grown(), self.leaves
        for (arcs, is_used), one in [(path, node), *(() if isinstance(node, Leaf) else text.below())]:
            found.lines.append(self.node_lines(text, one))
            if isinstance(one, Leaf):
                found.tasks.append((arcs, is_used, one.line, self.priced_sets(text, one),
                                    self.priced_rows(text, one)))
        self.leaves = leaves
        return found

    def take(self, grown, taken):
        self.leaves += len(taken.tasks)
        taking = [text for text, one in grown if one == taken]
        self.alike = [text for text in self.alike if text in taking]

    def written(self, file, telling):
        """Writes the nodes of the joined tree."""
        held, size, asked = [], 0, 0
        for piece in self.pieces():
            if not held and isinstance(piece, bytes):
                file.write(piece)
                continue
            held.append(piece)
            size += len(piece)
            asked += 0 if isinstance(piece, bytes) else piece.asked()
            if size > MOST_HELD or asked > MOST_ASKED:
                self.put(file, held, telling)
                held, size, asked = [], 0, 0
        self.put(file, held, telling)

    def put(self, file, held, telling):
        """Writes what was held, once it is known what is to be taken."""
        if not held:
            return
        questions = [piece for piece in held if not isinstance(piece, bytes)]
        tasks = (task for question in questions for one in question.others for task in one.tasks)
        values = self.told(self.valuers().answers(value_of, tasks), telling)
        for question in questions:
            question.answer(values)
        file.writelines(piece if isinstance(piece, bytes) else b"".join(piece.taken.lines) for piece in held)

    def told(self, values, telling):
        """The values, counted and told of."""
        for found in values:
            self.valued += 1
            self.unvalued += found is None
            if telling.is_due():
                telling.tell("%d leaves are valued that texts differ in" % self.valued)
            yield found


class Question:
    """What several texts have in the place of a leaf: that with the highest bound is taken, of equal ones that with the
    fewest leaves, and of these the first."""

    def __init__(self, joining, grown, others):
        self.joining, self.grown, self.others, self.taken = joining, grown, others, None

    def __len__(self):
        return sum(len(line) for one in self.others for line in one.lines)

    def asked(self):
        return sum(len(one.tasks) for one in self.others)

    def answer(self, values):
        ranked = [(one.bound(values), -len(one.tasks)) for one in self.others]
        self.taken = self.others[ranked.index(max(ranked))]
        self.joining.take(self.grown, self.taken)
