"""The text of joined certificates: its head, its bound as the check finds it, and what the check says of it."""
import os
import tempfile

from reference.pricing import Pricing
from reference.set_texts import FIRST, FIRST_WITH_ROWS, MOST_ROWS, MOST_SETS, spaced
from reference.texts import MOST_LEAVES, shown, tenths
from tools.joining import Joining
from tools.judged import program_of, ran
from tools.pruning import Tree, pruned
from tools.stopping import end_by_signals
from tools.telling import Telling
from tools.tool import Refused, reason_of, printed_file, told_path
from tools.tree_texts import TreeText, row_line, set_line
from tools.valuing import Valuer, Valuers


def texts_of(instance, paths):
    """The texts, whose heads are those of one tree of the instance."""
    texts = [TreeText(path) for path in paths]
    tree = texts[0]
    for text in texts:
        if (text.name, text.count) != (instance.name, instance.count):
            text.refuse("a certificate of another instance", "%s with %d customers" % (
                instance.name.decode(), instance.count), 2)
        if text.neighbours != tree.neighbours:
            text.refuse("%d neighbours" % text.neighbours, "%d, as %s has" % (tree.neighbours, tree.path), 4)
        if text.version != tree.version:
            text.refuse('"%s"' % text.kind.decode(), '"%s", as %s has' % (tree.kind.decode(), tree.path), 1)
    return texts


class TooMany(Refused):
    """All texts together have too many leaves."""


class Joined:
    """The joined certificate of an instance, which is made in a folder."""
    # Whether what one part alone has at a leaf is taken, and nothing is valued.
    takes_changes = False

    def __init__(self, instance, given, folder):
        self.instance, self.given, self.folder = instance, given, folder
        self.program = program_of(given)
        self.texts = texts_of(instance, [given.tree] + given.parts)
        self.joining, self.held = Joining(self.texts, self.valuers, self.takes_changes), None
        self.sets, self.rows, self.merged = self.joining.sets.listed, self.joining.rows.listed, 0
        self.telling = Telling("outside/join: ", is_elsewhere=False)

    def path(self, name):
        return os.path.join(self.folder, name)

    def valuers(self):
        """The processes that find values, which begin once they are needed."""
        if self.held is None:
            tree = self.texts[0]
            pricing = Pricing(self.instance, tree.neighbours, tree.version, self.given.labels)
            self.held = Valuers(Valuer(pricing, self.sets, self.rows), self.given.jobs)
        return self.held

    def end(self, is_whole):
        if self.held is not None:
            self.held.end(is_whole)
        self.telling.end()

    def is_pruned(self):
        """Whether pairs of leaves are made one."""
        return self.given.prune is not None

    def is_over(self):
        """Whether the check is broken off."""
        return False

    def put_texts(self, plan):
        """Puts the instance and the plan, where there is one, beside the text."""
        for name, text in (("instance", self.instance.held), ("solution", plan)):
            if text is not None:
                with open(self.path(name), "wb") as file:
                    file.write(text)

    def make_tree(self):
        """Writes the nodes, and prunes them where that is asked for. Answers how many leaves there are."""
        with open(self.path("nodes"), "wb") as file:
            self.joining.written(file, self.telling)
        if self.is_pruned():
            with open(self.path("nodes"), "rb") as file:
                tree = Tree(file)
            self.merged = pruned(tree, self.given.prune, self.valuers(), self.telling)
            with open(self.path("nodes"), "wb") as file:
                tree.write(file)
        leaves = self.joining.leaves - self.merged
        if leaves > MOST_LEAVES:
            raise TooMany("%s: met %d leaves of all parts together, wanted at most %d" % (
                told_path(self.given.tree), leaves, MOST_LEAVES))
        if len(self.sets) > MOST_SETS:
            self.sets = self.used_of(self.sets, b"M", "sets", MOST_SETS, set_line)
        if len(self.rows) > MOST_ROWS:
            self.rows = self.used_of(self.rows, b"Q", "rows", MOST_ROWS, row_line)
        return leaves

    def used_of(self, listed, letter, what, most, line_of):
        """Of listed sets or rows those that have a price at some leaf; the lines with this letter name them by their
        numbers among these then."""
        used = set()
        with open(self.path("nodes"), "rb") as file:
            for line in file:
                if line.startswith(letter):
                    used.update(map(int, line.split(b" ")[1::2]))
        if len(used) > most:
            raise Refused("%s: met %d %s that have prices in all parts together, wanted at most %d" % (
                told_path(self.given.tree), len(used), what, most))
        numbers = {before: number for number, before in enumerate(sorted(used), 1)}
        with open(self.path("nodes"), "rb") as file, open(self.path("fewer"), "wb") as other:
            for line in file:
                if line.startswith(letter):
                    words = [int(word) for word in line.split(b" ")[1:]]
                    line = line_of((numbers[place], price) for place, price in zip(words[::2], words[1::2])) + b"\n"
                other.write(line)
        os.replace(self.path("fewer"), self.path("nodes"))
        return [listed[number - 1] for number in sorted(used)]

    def write(self, bound):
        """Writes the text with a bound."""
        tree = self.texts[0]
        first = FIRST_WITH_ROWS if self.joining.has_rows else FIRST if self.joining.has_sets else tree.kind
        lines = [first.decode(), "INSTANCE " + tree.name.decode(), "CUSTOMERS %d" % tree.count,
                 "NEIGHBOURS %d" % tree.neighbours, "BOUND " + shown(bound)]
        lines += [spaced("S", one.need, *one.customers) for one in self.sets]
        lines += [spaced("R", *row) for row in self.rows] + ["TREE"]
        with open(self.path("certificate"), "wb") as file, open(self.path("nodes"), "rb") as nodes:
            file.write("".join(line + "\n" for line in lines).encode())
            while True:
                piece = nodes.read(1 << 20)
                if not piece:
                    break
                file.write(piece)
            file.write(b"END\n")

    def checked(self):
        """The line of the check of the text, with the plan where one is given, and what it says on standard error."""
        words = [self.program, "check", self.path("instance"), self.path("certificate")]
        words += [] if self.given.solution is None else ["--solution", self.path("solution")]
        came = ran(words, self.is_over, self.tell_check)
        return came.line, came.fault

    def tell_check(self, _):
        if self.telling.is_due():
            self.telling.tell("vrptw check finds the bound")

    def bound(self):
        """Writes the text with its bound: the one that is given, that of a text whose tree is the joined one, or what
        the check finds. Answers what the check said of it, if that was asked."""
        alike, given = self.joining.alike if not self.merged else [], self.given.bound
        known = given if given is not None else alike[0].bound if alike else None
        self.write(min(text.bound for text in self.texts) if known is None else known)
        if known is not None:
            return None
        line, fault = self.checked()
        words = fault.split(" ")
        if words[:3] != ["vrptw:", "check:", "BoundDiffers"]:
            return line, fault
        self.write(tenths(words[4].encode()))
        return None


def plan_text(path):
    """What a plan's file holds."""
    try:
        with open(path, "rb") as file:
            return file.read()
    except OSError as fault:
        raise Refused("%s: %s" % (path, reason_of(fault)))


def made(joined):
    """Makes the text. Answers how many leaves it has, and the line of the check where that was asked."""
    leaves, said = joined.make_tree(), joined.bound()
    if joined.given.check:
        said = said or joined.checked()
    line, fault = said or (None, "")
    if line == "":
        raise Refused("%s: vrptw check says: %s" % (told_path(joined.given.tree), fault))
    return leaves, line if joined.given.check else None


def noted(joined, leaves, line):
    """What is noted of a text that was made."""
    notes = [] if line is None else ["vrptw check says: " + line]
    if joined.joining.unvalued:
        notes.append("%d of %d leaves that texts differ in have too many labels, and others were taken; --labels "
                     "allows more" % (joined.joining.unvalued, joined.joining.valued))
    if joined.given.prune is not None:
        notes.append("leaves: %d in place of %d" % (leaves, leaves + joined.merged))
    return notes


def join(instance, given):
    """Prints the joined certificate. Answers what is noted."""
    plan = None if given.solution is None else plan_text(given.solution)
    with tempfile.TemporaryDirectory() as folder:
        joined, is_whole = Joined(instance, given, folder), False
        end_by_signals()
        joined.put_texts(plan)
        try:
            notes = noted(joined, *made(joined))
            is_whole = True
        finally:
            joined.end(is_whole)
        printed_file(joined.path("certificate"))
    return notes
