"""A certificate's tree, cut at random, and parts that grew from it: each has some of what was cut off. Trees are those
of `reference`."""
from cases.random_texts import arcs_of
from reference.bounding import PricedSet

# How many leaves a tree may have.
MOST = 40


def leaf_count(tree):
    """How many leaves a tree has."""
    return 1 if tree[0] == "P" else leaf_count(tree[2]) + leaf_count(tree[3])


def changed_leaf(random, leaf):
    """A leaf with one price that is another one."""
    prices = list(leaf[1])
    prices[random.randrange(len(prices))] += random.choice([-20000, -1000, 1, 1000, 20000])
    return ("P", prices, *leaf[2:])


def wider(random, count, tree, path=(), depth=3):
    """A tree with some leaves split further, by arcs that the path leaves open, and some prices changed."""
    if tree[0] == "S":
        below = [wider(random, count, child, path + (tree[1],), depth) for child in tree[2:]]
        return ("S", tree[1], *below)
    arcs = [arc for arc in arcs_of(count) if arc not in path]
    if not depth or not arcs or random.randrange(3) == 0:
        return changed_leaf(random, tree) if random.randrange(3) == 0 else tree
    arc = random.choice(arcs)
    return ("S", arc, *(wider(random, count, tree, path + (arc,), depth - 1) for _ in range(2)))


def first_leaf(tree):
    return tree if tree[0] == "P" else first_leaf(tree[2])


def cut(random, tree, has_sets, depth=0):
    """A tree with some subtrees cut off. In their place stand prices of zero, or those of a leaf there."""
    if tree[0] == "P" or random.randrange(4 + depth) > 2:
        if random.randrange(3) == 0:
            return first_leaf(tree)
        zero = ("P", [0] * len(first_leaf(tree)[1]))
        return zero + ((),) if has_sets else zero
    return ("S", tree[1], *(cut(random, child, has_sets, depth + 1) for child in tree[2:]))


def pruned_below(random, tree):
    """A tree with some of its subtrees cut off again."""
    if tree[0] == "P" or random.randrange(3) == 0:
        return first_leaf(tree)
    return ("S", tree[1], *(pruned_below(random, child) for child in tree[2:]))


def repriced(random, tree):
    """A tree with the prices of customers at some leaves halved, or those of sets."""
    if tree[0] == "S":
        return ("S", tree[1], *(repriced(random, child) for child in tree[2:]))
    if random.randrange(2):
        return tree
    if tree[2:] and tree[2] and random.randrange(2):
        return ("P", tree[1], tuple(one._replace(price=1 + one.price // 2) for one in tree[2]))
    return ("P", [price // 2 for price in tree[1]], *tree[2:])


def set_priced(random, tree, sets):
    """A tree with sets whose leaves have drawn prices of some of them, now and then."""
    if tree[0] == "S":
        return ("S", tree[1], *(set_priced(random, child, sets) for child in tree[2:]))
    if random.randrange(2):
        return tree
    return ("P", tree[1], tuple(
        PricedSet(number, frozenset(one.customers), one.need, random.choice([1, 1000, random.randint(1, 50000)]))
        for number, one in enumerate(sets, 1) if random.randrange(2)))


def parts(random, tree, whole, count):
    """So many trees that grew from a tree: what is in its leaves' places in the whole is shared out among them. Now and
    then nobody has it, two have it, or one has less of it, or other prices."""
    if tree[0] == "S":
        below = [parts(random, child, there, count) for child, there in zip(tree[2:], whole[2:])]
        return [("S", tree[1], *children) for children in zip(*below)]
    found = [tree] * count
    for _ in range(random.choice([0, 1, 1, 1, 1, 2, 2])):
        found[random.randrange(count)] = random.choice([
            whole, whole, pruned_below(random, whole), repriced(random, whole)])
    return found


def other_split(random, tree, count):
    """A tree with one split by another arc; None where it has no split."""
    if tree[0] == "P":
        return None
    if random.randrange(2):
        below = [other_split(random, child, count) for child in tree[2:]]
        place = random.randrange(2)
        if below[place] is not None:
            return ("S", tree[1], *(below[at] if at == place else tree[2 + at] for at in range(2)))
    i, j = tree[1]
    return ("S", (j, i), *tree[2:])
