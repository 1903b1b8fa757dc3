"""Random certificates with rows for tests: few customers, rows, prices and trees. Any prices of any rows are sound."""
from cases.random_texts import arcs_of
from cases.set_cases import forged, leaf_of, near, sets_of, spoilt_line
from reference.rows import PricedRow
from reference.set_texts import SetCertificate


def rows_of(random, count):
    """Some rows of three customers each, in order."""
    if count < 3:
        return []
    return sorted({tuple(sorted(random.sample(range(1, count + 1), 3))) for _ in range(random.randint(0, 6))})


def charging(random, instance, rows, most):
    """Prices of some rows, which together are no more than this; each is of the size of a way to its customers."""
    found = []
    for number, row in enumerate(rows, 1):
        far = max(1000 * (instance.arc[0][i] + instance.arc[i][0]) for i in row)
        price = max(1, near(random, random.choice([far, far // 2, far // 4])))
        if random.randrange(3) and sum(one.price for one in found) + price <= most:
            found.append(PricedRow(number, frozenset(row), price))
    return tuple(found)


def leaf_with_rows(random, instance, sets, rows):
    """A leaf whose prices of customers share what ways to them cost, with more where rows charge them back."""
    kind, prices, priced = leaf_of(random, instance, sets)
    most = 10 ** 12 - sum(one.price for one in priced) - max(map(abs, prices))
    charged = charging(random, instance, rows, most // 2)
    if random.randrange(2):
        for one in charged:
            for i in one.customers:
                prices[i - 1] += one.price // 2
    return kind, prices, priced + charged


def tree_of_rows(random, instance, sets, rows, path, depth):
    """A random tree below a path."""
    arcs = [arc for arc in arcs_of(instance.count) if arc not in path]
    if depth == 0 or not arcs or random.randrange(3) == 0:
        return leaf_with_rows(random, instance, sets, rows)
    arc = random.choice(arcs)
    return ("S", arc, *(tree_of_rows(random, instance, sets, rows, path + [arc], depth - 1) for _ in range(2)))


def row_certificate(random, instance):
    """A certificate of the instance with the bound 0.0. Few neighbours only where routes are short."""
    neighbours = random.choice([0, 1, 2, 8, 15]) if instance.capacity <= 5 else random.choice([8, 15])
    sets = sets_of(random, instance) if random.randrange(2) else []
    rows = rows_of(random, instance.count)
    tree = tree_of_rows(random, instance, sets, rows, [], random.choice([0, 0, 1, 2]))
    return SetCertificate(instance.name, instance.count, neighbours, 0, sets, tree, rows)


def spoilt_row_line(random, found, text):
    """The text with one thing wrong in a line of rows or of sets, and the reader's fault."""
    if random.randrange(4) == 0:
        return spoilt_line(random, found, text)
    lines = text.decode().split("\n")
    at = random.choice([at for at, line in enumerate(lines) if line.split(" ")[0] == "Q"])
    # The place of the line, the lines in its place, and the fault, which is told of the first of them.
    ways = [(at, [], "BadLine"), (at + 1, lines[at:at + 2], "BadLine"), (at, [lines[at] + " 1"], "BadLine"),
            (at, ["Q 0 1"], "BadRow"), (at, ["Q %d 1" % (len(found.rows) + 1)], "BadRow"), (at, ["q"], "BadLine")]
    ways += [(lines.index("TREE"), [line, "TREE"], fault) for line, fault in (
        ("R 1 2", "BadLine"), ("R 1 1 2", "BadRow"), ("R 2 1 3", "BadRow"), ("R 0 1 2", "BadRow"),
        ("R 1 2 %d" % (found.count + 1), "BadRow"), ("R 1 2 3 4", "BadLine"), ("R 1 02 3", "BadLine"),
        ("r 1 2 3", "BadLine"), ("S 1 1 2", "BadLine") if found.rows else ("R", "BadLine"))]
    if found.rows:
        last = lines.index("TREE") - 1
        ways += [(last, ["R"], "BadLine"), (last + 1, [lines[last], "TREE"], "BadRow")]
        ways += [(at, [line % len(found.rows)], fault) for line, fault in (
            ("Q %d 0", "PriceRange"), ("Q %d 1000000000001", "PriceRange"), ("Q %d -1", "BadLine"), ("Q %d 1 1 1", "BadRow"))]
    place, others, fault = random.choice(ways)
    lines[place:place + 1] = others
    return "\n".join(lines).encode(), "%s line %d" % (fault, place + 1)


def forged_row(random, found, text):
    """What is forged, and the text then, which is read: the price of a row, a row's customers, or nothing where there is
    no such line; or what is forged in a text with sets."""
    lines = text.decode().split("\n")
    priced = [at for at, line in enumerate(lines) if line.startswith("Q ")]
    if not priced or random.randrange(2):
        return forged(random, found, text)
    at = random.choice(priced)
    words = lines[at].split(" ")
    place = 2 * random.randint(1, len(words) // 2)
    words[place] = str(max(1, int(words[place]) + random.choice([1, 1, -1]) * random.choice([1, 1000, 100000])))
    lines[at] = " ".join(words)
    return "price of a row", "\n".join(lines).encode()
