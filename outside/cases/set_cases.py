"""Random certificates with sets for tests: few customers, sets, prices and trees. Any sets and prices are sound."""
from cases.edges import edge_words
from cases.random_texts import arcs_of
from cases.shapes import SHAPES, words_of
from reference.bounding import PricedSet
from reference.needs import need
from reference.set_texts import FIRST_SET, ListedSet, SetCertificate
from reference.texts import shown

# Steps whose arcs are whole units, truncated by more than a half: over two of them the arc is a tenth longer.
STEPS = [(1, 5), (1, 6), (6, 1), (1, 7), (5, 5), (1, 8), (4, 7), (1, 9)]


def line_words(random, count):
    """The words of an instance with customers on a line, some of them at moments that only the quickest ways meet."""
    x, y = random.choice(STEPS)
    unit, closes, rows = int((x * x + y * y) ** 0.5), 1000, []
    order = random.sample(range(count), count) if random.randrange(3) == 0 else list(range(count))
    time, at = 0, 0
    for place in order:
        time += unit * abs(place + 1 - at)
        at, service = place + 1, random.choice([0, 0, 1])
        window = random.choice([(0, 1000), (0, time), (time, time)])
        rows.append((place, (x * at, y * at, random.choice([1, 1, 2]), *window, service)))
        time += service
    if random.randrange(2):
        closes = max([time + unit * at] + [row[4] for _, row in rows])
    depot = (0, 0, 0, 0, closes, 0)
    return words_of(random, random.choice([count, random.randint(1, count)]), random.choice([3, count, 2 * count]),
                    [depot] + [row for _, row in sorted(rows)])


def timed_words(random, count):
    """The words of an instance whose vehicles hold all, but have time for a few alone; each has its vehicle."""
    wide, service = random.choice([3, 10, 20]), random.choice([5, 10, 30])
    rows = []
    for _ in range(count):
        place = (random.randrange(wide), random.randrange(wide))
        ready = random.choice([0, 0, random.randrange(3 * service)])
        rows.append((*place, 1, ready, ready + 2 * wide + random.randrange(3 * service), service))
    closes = max(row[4] for row in rows) + service + 2 * wide
    return words_of(random, count, 2 * count, [(0, 0, 0, 0, closes, 0)] + rows)


def set_words(random, count):
    """The words of an instance of some kind."""
    kinds = SHAPES + [edge_words, line_words, line_words, line_words, timed_words, timed_words, timed_words]
    return random.choice(kinds)(random, count)


def drawn_set(random, count, most=400):
    """At least two customers in increasing order."""
    return tuple(sorted(random.sample(range(1, count + 1), random.randint(2, min(count, most)))))


def sets_of(random, instance):
    """Some sets with what they need, a few with less; none where there is one customer alone."""
    sets = [drawn_set(random, instance.count) for _ in range(random.randint(0, 5) if instance.count > 1 else 0)]
    needs = [need(instance, customers) for customers in sets]
    return [ListedSet(random.choice([here, here, here, random.randint(1, here)]), customers)
            for here, customers in zip(needs, sets)]


def near(random, grains):
    """A price of some size near so many grains."""
    return grains * random.randint(0, 4) // 4 + random.choice([0, 0, random.randint(-2000, 2000)])


def leaf_of(random, instance, sets):
    """A leaf whose prices of customers and sets share what ways to them cost."""
    far = [1000 * (instance.arc[0][i] + instance.arc[i][0]) for i in range(1, instance.count + 1)]
    part = random.choice([1, 2, 4])
    prices = [near(random, grains // part) for grains in far]
    priced = [PricedSet(number, frozenset(one.customers), one.need,
                        max(1, near(random, max(far[i - 1] for i in one.customers))))
              for number, one in enumerate(sets, 1) if random.randrange(2)]
    return "P", prices, tuple(priced)


def tree_of_sets(random, instance, sets, path, depth):
    """A random tree below a path."""
    arcs = [arc for arc in arcs_of(instance.count) if arc not in path]
    if depth == 0 or not arcs or random.randrange(3) == 0:
        return leaf_of(random, instance, sets)
    arc = random.choice(arcs)
    return ("S", arc, *(tree_of_sets(random, instance, sets, path + [arc], depth - 1) for _ in range(2)))


def set_certificate(random, instance):
    """A certificate of the instance with the bound 0.0. Few neighbours only where routes are short."""
    neighbours = random.choice([0, 1, 2, 8, 15]) if instance.capacity <= 5 else random.choice([8, 15])
    sets = sets_of(random, instance)
    tree = tree_of_sets(random, instance, sets, [], random.choice([0, 0, 1, 2]))
    return SetCertificate(instance.name, instance.count, neighbours, 0, sets, tree)


def spoilt_line(random, found, text):
    """The text with one thing wrong in a line, and the reader's fault."""
    lines = text.decode().split("\n")
    at = random.choice([at for at, line in enumerate(lines) if line.split(" ")[0] == "M"])
    # The place of the line, the lines in its place, and the fault.
    ways = [(lines.index("TREE"), [], "BadLine"), (at, [], "BadLine"), (at + 1, lines[at:at + 2], "BadLine"),
            (at, [lines[at] + " 1"], "BadLine"), (at, ["M 0 1"], "BadSet"),
            (at, ["M %d 1" % (len(found.sets) + 1)], "BadSet")]
    if found.sets:
        ways += spoilt_sets(lines, FIRST_SET - 1 + random.randrange(len(found.sets)), found.count)
        ways += [(at, [line % len(found.sets)], fault) for line, fault in (
            ("M %d 0", "PriceRange"), ("M %d 1000000000001", "PriceRange"), ("M %d -1", "BadLine"),
            ("M %d 1 1 1", "BadSet"))]
    place, others, fault = random.choice(ways)
    lines[place:place + 1] = others
    return "\n".join(lines).encode(), "%s line %d" % (fault, place + 1)


def spoilt_sets(lines, place, count):
    """The line of a set with each thing wrong, as above."""
    _, needs, *customers = lines[place].split(" ")
    ways = [("S 0", customers, "NeedRange"), ("S 4000001", customers, "NeedRange"), ("S -1", customers, "BadLine"),
            ("S " + needs, customers[::-1], "BadSet"), ("S " + needs, customers + customers[-1:], "BadSet"),
            ("S " + needs, customers + [str(count + 1)], "BadSet"), ("S " + needs, ["0"] + customers, "BadSet"),
            ("S " + needs, customers[:1], "BadLine"), ("S  " + needs, customers, "BadLine"),
            ("S " + needs, [customers[0] + "."] + customers, "BadLine")]
    return [(place, [" ".join([head] + rest)], fault) for head, rest, fault in ways]


def forged(random, found, text):
    """What is forged, and the text then, which is read: a need, the price of a customer or of a set, the bound, or
    nothing where there is no such line."""
    lines = text.decode().split("\n")
    kind, head, least = random.choice([("nothing", "", 0), ("bound", "BOUND", 0), ("need", "S", 1), ("need", "S", 1),
                                       ("price", "P", None), ("price of a set", "M", 1), ("price of a set", "M", 1)])
    tree = lines.index("TREE")
    places = [at for at, line in enumerate(lines) if line.startswith(head + " ") and (at > tree) == (head in "PM")]
    if not places:
        return "nothing", text
    at = random.choice(places)
    words = lines[at].split(" ")
    place = {"P": random.randrange(1, len(words)), "M": 2 * random.randint(1, len(words) // 2)}.get(head, 1)
    if kind == "bound":
        words[1] = shown(found.bound + random.choice([1, 10]))
    else:
        more = random.choice([1, 1, -1]) * (1 if kind == "need" else random.choice([1, 1000, 100000]))
        words[place] = str(int(words[place]) + more if least is None else max(least, int(words[place]) + more))
    lines[at] = " ".join(words)
    return kind, "\n".join(lines).encode()
