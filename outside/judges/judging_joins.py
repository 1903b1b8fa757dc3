"""Certificates that grew from one, by join: the joined text is the one that its rules make of whole trees, with the
bound of the reference, and what doesn't belong to the tree is refused."""
import os

from cases.edges import edge_words
from cases.grown_trees import MOST, cut, leaf_count, other_split, parts, set_priced, wider
from cases.mutating import changed_bytes, changed_number
from cases.random_texts import instance_words, laid_out
from cases.set_cases import set_words, sets_of
from judges.judging_layouts import tool
from judges.kind import Kind, program_by
from judges.running import demand, put, run_check, solve
from reference import bounding, checking
from reference.bounding import PricedSet, Region
from reference.instances import read
from reference.pricing import Pricing
from reference.set_texts import ListedSet, SetCertificate, read_either, written
from reference.texts import Certificate, TextFault, shown

FIRST_LINE = "VRPTW-CERT %d\nINSTANCE %s\nCUSTOMERS %d\nNEIGHBOURS %d\nBOUND %s\nTREE\n"


class NotGrown(Exception):
    """A text isn't one of the instance, or didn't grow from the tree."""


def text_of(found):
    """The text of a certificate with sets or without."""
    if isinstance(found, SetCertificate):
        return written(found)
    head = FIRST_LINE % (found.version, found.name.decode(), found.count, found.neighbours, shown(found.bound))
    return (head + "".join(lines_of(found.tree)) + "END\n").encode()


def lines_of(tree):
    if tree[0] == "P":
        return ["P %s\n" % " ".join(map(str, tree[1]))]
    return ["S %d %d\n" % tree[1]] + lines_of(tree[2]) + lines_of(tree[3])


class Rules:
    """What join makes of texts that were read, the first of which is the tree, by recursion over whole trees."""

    def __init__(self, instance, texts):
        self.instance, self.texts, tree = instance, texts, texts[0]
        for one in texts:
            if ((one.name, one.count, one.neighbours, one.version) != (
                    instance.name, instance.count, tree.neighbours, tree.version)):
                raise NotGrown
        self.has_sets = any(isinstance(one, SetCertificate) for one in texts)
        self.sets = list(dict.fromkeys(one for text in texts for one in text.sets))
        self.pricing = Pricing(instance, tree.neighbours, tree.version)
        self.trees = [self.renumbered(text.tree, text) for text in texts]

    def renumbered(self, tree, text):
        """A tree with the sets of all texts, and without any where no text has sets."""
        if tree[0] == "S":
            return ("S", tree[1], self.renumbered(tree[2], text), self.renumbered(tree[3], text))
        prices = {}
        for one in tree[2] if len(tree) > 2 else ():
            number = 1 + self.sets.index(text.sets[one.number - 1])
            prices[number] = prices.get(number, 0) + one.price
        return self.leaf(tree[1], prices)

    def leaf(self, prices, by_sets):
        """A leaf by the prices of customers and by those of sets."""
        sets = tuple(PricedSet(number, frozenset(self.sets[number - 1].customers), self.sets[number - 1].need, price)
                     for number, price in sorted(by_sets.items()) if price)
        return ("P", list(prices), sets) if self.has_sets else ("P", list(prices))

    def value(self, region, leaf):
        return min(self.instance.ceiling() + 1, bounding.leaf_value(
            self.instance, region, leaf[1], self.texts[0].neighbours, self.texts[0].version, bounding.least_by_labels,
            *leaf[2:]))

    def bound(self, region, tree):
        if tree[0] == "P":
            return self.value(region, tree)
        return min(self.bound(region.used(tree[1]), tree[2]), self.bound(region.unused(tree[1]), tree[3]))

    def joined(self, region, trees):
        """The tree that is joined of some that stand in one place."""
        first = trees[0]
        if first[0] == "S":
            if any(tree[0] == "P" or tree[1] != first[1] for tree in trees):
                raise NotGrown
            return ("S", first[1], self.joined(region.used(first[1]), [tree[2] for tree in trees]),
                    self.joined(region.unused(first[1]), [tree[3] for tree in trees]))
        grown = [tree for tree in trees if tree[0] == "S"] or trees
        if all(tree == grown[0] for tree in grown):
            return grown[0]
        return max(grown, key=lambda tree: (self.bound(region, tree), -leaf_count(tree)))

    def pruned(self, region, tree, cost):
        """A tree with pairs of leaves joined wherever that reaches the cost."""
        if tree[0] == "P":
            return tree
        used, unused = (self.pruned(region.used(tree[1]), tree[2], cost),
                        self.pruned(region.unused(tree[1]), tree[3], cost))
        if used[0] == unused[0] == "P":
            for leaf in (used, unused, self.mean(used, unused)):
                if self.value(region, leaf) >= cost:
                    return leaf
        return ("S", tree[1], used, unused)

    def mean(self, first, other):
        by_sets = [{one.number: one.price for one in leaf[2]} if self.has_sets else {} for leaf in (first, other)]
        sets = {number: sum(prices.get(number, 0) for prices in by_sets) // 2 for number in {*by_sets[0], *by_sets[1]}}
        return self.leaf([(one + more) // 2 for one, more in zip(first[1], other[1])], sets)

    def text(self, cost):
        """The joined certificate: its bound is the one printed in a text of the same tree, else that of the tree."""
        region = Region(self.instance.count)
        tree = before = self.joined(region, self.trees)
        if cost is not None:
            tree = self.pruned(region, tree, cost)
        alike = [text for text, one in zip(self.texts, self.trees) if one == tree == before]
        bound = alike[0].bound if alike else self.bound(region, tree)
        if not alike and checking.line_of_great_need(self.instance, self.sets) is not None:
            raise NotGrown
        head = self.instance.name, self.instance.count, self.texts[0].neighbours, bound
        if self.has_sets:
            return SetCertificate(*head, self.sets, tree)
        return Certificate(self.texts[0].version, *head, tree)


def whole_of(program, folder, random):
    """An instance, its text, a certificate that the program wrote with its tree grown at random, and its plan."""
    while True:
        words = random.choice([edge_words, set_words, instance_words])(random, random.randint(2, 7))
        text = laid_out(random, words)
        options = ["--turns", str(random.randint(1, 4)), "--searchers", "1", "--bounders", "1",
                   "--neighbours", str(random.choice([8, 15])), "--sets", str(random.choice([0, 0, 5, 20]))]
        came = solve(program, folder, text, options)
        if came[2] in (0, 1) and came[4]:
            found = read_either(came[4])
            found.tree = wider(random, found.count, found.tree)
            if isinstance(found, SetCertificate):
                found.sets += [one for one in sets_of(random, read(text)) if one not in found.sets]
                found.tree = set_priced(random, found.tree, found.sets)
            if 1 < leaf_count(found.tree) <= MOST:
                return read(text), text, found, came[3]


def like(found, tree, sets):
    """A certificate with another tree; one with sets has these."""
    if isinstance(found, SetCertificate):
        return SetCertificate(found.name, found.count, found.neighbours, 0, sets, tree)
    return Certificate(found.version, found.name, found.count, found.neighbours, 0, tree)


def reordered(random, found):
    """A certificate with sets, in another order and with some more; or where no set has a price one without sets."""
    extra = [ListedSet(1, (1, 2))] if found.count > 1 and random.randrange(2) else []
    sets = found.sets + [one for one in extra if one not in found.sets]
    random.shuffle(sets)
    rules = Rules.__new__(Rules)
    rules.sets, rules.has_sets = sets, True
    return SetCertificate(found.name, found.count, found.neighbours, found.bound, sets,
                          rules.renumbered(found.tree, found))


def texts_of(random, instance, whole):
    """The tree that the whole is cut to, and parts, each with its bound."""
    has_sets = isinstance(whole, SetCertificate)
    tree = cut(random, whole.tree, has_sets)
    trees = [tree] + parts(random, tree, whole.tree, random.randint(1, 4))
    texts = [like(whole, one, list(whole.sets)) for one in trees]
    version = 1 if not has_sets and random.randrange(3) == 0 else 2
    for one in texts:
        one.version = version
        one.bound = checking.tree_bound(instance, one, bounding.least_by_labels)
    if has_sets and random.randrange(2):
        texts = [reordered(random, one) for one in texts]
    return texts


def as_sets(random, texts):
    """Texts without sets, some of which are now of the form with sets."""
    if texts[0].version != 2 or isinstance(texts[0], SetCertificate) or random.randrange(3):
        return texts
    def formed(tree):
        return tree + ((),) if tree[0] == "P" else ("S", tree[1], formed(tree[2]), formed(tree[3]))
    return [SetCertificate(one.name, one.count, one.neighbours, one.bound, [], formed(one.tree))
            if random.randrange(2) else one for one in texts]


def spoilt(random, texts, held):
    """Something wrong with one text, mostly: how, and the texts."""
    at = random.randrange(len(held))
    way = random.choice(["name", "neighbours", "split", "bytes", "bytes", "number", "short", "more"])
    if way == "split" and at and other_split(random, texts[at].tree, 0) is not None:
        texts[at].tree = other_split(random, texts[at].tree, 0)
        held[at] = text_of(texts[at])
    elif way == "neighbours":
        texts[at].neighbours = (texts[at].neighbours + 1) % 16
        held[at] = text_of(texts[at])
    elif way == "name":
        held[at] = held[at].replace(b"INSTANCE ", b"INSTANCE x", 1)
    elif way == "short":
        held[at] = held[at][:random.randrange(len(held[at]))]
    elif way == "more":
        held[at] += random.choice([b"x", b"\n", b"END\n"])
    else:
        held[at] = (changed_number if way == "number" else changed_bytes)(random, held[at])
    return way


def wanted(instance, held, cost):
    """The joined text, or None where it is to be refused."""
    try:
        return text_of(Rules(instance, [read_either(text) for text in held]).text(cost))
    except (TextFault, NotGrown):
        return None


def judge_join(program, folder, random):
    """A joined text, whole or of texts of which one is spoilt."""
    instance, text, whole, plan = whole_of(program, folder, random)
    texts = as_sets(random, texts_of(random, instance, whole))
    held, way = [text_of(one) for one in texts], "whole"
    if random.randrange(3) == 0:
        way = spoilt(random, texts, held)
    cost = random.choice([None, None, whole.bound, random.randrange(whole.bound + 2)])
    right = wanted(instance, held, cost)
    paths = [os.path.join(folder, "text%d" % at) for at in range(len(held))]
    for path, one in zip(paths, held):
        put(path, one)
    put(os.path.join(folder, "instance"), text)
    words = [os.path.join(folder, "instance"), *paths, "--program", program, "--jobs", "1"]
    words += [] if cost is None else ["--prune", shown(cost)]
    if right is not None and random.randrange(3) == 0:
        # Who knows the bound needs no program.
        words = [word if word != program else "/bin/false" for word in words]
        words += ["--bound", shown(read_either(right).bound)]
    out, errors, status = tool("join", *words)
    if right is None:
        demand((out, status, errors.count("\n")) == (b"", 1, 1) and errors.startswith("outside/join: ")
               and ", wanted " in errors or "vrptw check says: " in errors, "%s: status %d, %r" % (way, status, errors))
        return "%s: refused" % way
    demand(status == 0 and out == right, "%s: status %d, %r, %r, and %r is right" % (way, status, errors, out, right))
    if way == "whole" and program in words:
        demand_checked(program, folder, instance, text, out, plan, words)
    return "%s: %s" % (way, "pruned" if cost is not None else "joined")


def demand_checked(program, folder, instance, text, certificate, plan, words):
    """The check takes the joined text, with the plan where there is one, and --check notes the line of that."""
    came = run_check(program, folder, text, certificate, plan or None)
    right = checking.check(text, certificate, plan or None, bounding.least_by_labels)
    demand(came == right and came[2] in (0, 1), "check: %r, and %r is right" % (came, right))
    if plan:
        words = words + ["--solution", os.path.join(folder, "solution")]
    out, errors, status = tool("join", *words, "--check")
    demand((out, status) == (certificate, 0), "join --check: status %d, %r" % (status, errors))
    demand("outside/join: note: vrptw check says: %s" % came[0] in errors, "join --check: %r" % errors)


KINDS = {
    "joins": Kind("certificates that grew from one, by join: the tree and bound of the reference, or refused", 24,
                  program_by(judge_join)),
}
