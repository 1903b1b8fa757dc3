"""Random instance texts, whole and mutated."""
from reference.building import build

HEAD = ["VEHICLE", "NUMBER", "CAPACITY", None, None, "CUSTOMER", "CUST", "NO.", "XCOORD.", "YCOORD.", "DEMAND",
        "READY", "TIME", "DUE", "DATE", "SERVICE", "TIME"]


def instance_words(random, count):
    """The words of an instance: loose or tight windows, one place for many or a wide plain, few or many vehicles.
    Most have a vehicle for each customer, and windows that a vehicle of its own reaches."""
    easy = random.random() < 0.7
    wide = random.choice([3, 10, 60, 400])
    horizon = 4 * wide + random.choice([20, 200, 1000]) if easy else random.choice([20, 200, 1000, 3000])
    capacity = random.choice([1, 2, 5, 20, 200])
    fleet = count if easy else random.choice([1, 2, 3, count])
    words = ["t%d" % random.randrange(1000)] + list(HEAD)
    words[4], words[5] = str(fleet + random.choice([0, 0, 3])), str(capacity)
    words += ["0", str(random.randrange(wide)), str(random.randrange(wide)), "0",
              str(random.choice([0, 0, 3])), str(horizon), "0"]
    for number in range(1, count + 1):
        words += [str(number), str(random.randrange(wide)), str(random.randrange(wide))]
        words += customer_words(random, easy, wide, horizon, capacity)
    return words


def customer_words(random, easy, wide, horizon, capacity):
    """Demand, ready time, due date and service time of a customer."""
    ready = random.choice([0, 0, random.randrange(horizon)])
    due = random.choice([horizon, ready + random.randrange(horizon)])
    if easy:
        ready = random.randrange(horizon - 4 * wide)
        due = ready + 2 * wide + random.randrange(horizon - 4 * wide)
    demand = random.choice([1, 1, 2, random.randint(1, capacity), capacity + random.choice([0, 0, 0, 1])])
    if easy:
        demand = min(demand, capacity)
    return [str(demand), str(ready), str(max(ready, due)), str(random.choice([0, 0, 1, 10]))]


def laid_out(random, words):
    """The words with separators of all kinds between them."""
    text = b""
    for word in words:
        text += word.encode() + random.choice([b" ", b"\n", b"  \t", b"\r\n"])
    return text if random.randrange(4) else text.rstrip()


def mutated(random, words):
    """The words with one thing wrong, or by chance nothing."""
    words = list(words)
    at = random.randrange(len(words))
    if random.randrange(2):
        at = 18 + random.randrange(len(words) - 18)
    kind = random.randrange(7)
    if kind == 0:
        del words[at:]
    elif kind == 1:
        words[at] = random.choice(["0", "-3", "+1", "1.5", "x", "10001", "1000001", "999999999", "1234567890", "00"])
    elif kind == 2:
        words[at] = "n" * random.choice([32, 33, 40])
    elif kind == 3:
        words.insert(at, random.choice(["7", "VEHICLE"]))
    elif kind == 4:
        del words[at]
    elif kind == 5:
        words.append("1")
    text = laid_out(random, words)
    if kind == 6:
        place = random.randrange(len(text) + 1)
        text = text[:place] + bytes([random.choice([0, 7, 27, 127, 128, 200, 255])]) + text[place:]
    return text


def arcs_of(count):
    """All arcs of so many customers, in order of (from, to)."""
    return [(i, j) for i in range(count + 1) for j in range(count + 1) if i != j]


def tree_lines(random, count, path, depth):
    """The lines of a random tree below a path."""
    if depth == 0 or random.randrange(3) == 0:
        prices = [random.choice([0, 7, -20, 100000, random.randrange(-10 ** 12, 10 ** 12)]) for _ in range(count)]
        return ["P " + " ".join(str(price) for price in prices)]
    arcs = [arc for arc in arcs_of(count) if arc not in path]
    if not arcs:
        return tree_lines(random, count, path, 0)
    arc = random.choice(arcs)
    below = [tree_lines(random, count, path + [arc], depth - 1) for _ in range(2)]
    return ["S %d %d" % arc] + below[0] + below[1]


def tree_of(random, instance):
    """The lines of a random tree for an instance, most of its prices near what a visit costs."""
    return [near_prices(random, instance) if line[0] == "P" and random.randrange(4) else line
            for line in tree_lines(random, instance.count, [], random.choice([0, 0, 1, 2, 3]))]


def near_prices(random, instance):
    prices = [1000 * (instance.arc[0][i] + instance.arc[i][0]) * random.choice([0, 1, 2, 3, 4]) // 2
              + random.choice([0, 0, random.randint(-2000, 2000)]) for i in range(1, instance.count + 1)]
    return "P " + " ".join(str(price) for price in prices)


def certificate_of(random, instance, tree):
    """The lines of a certificate for an instance, with the bound 0.0. Few neighbours only where routes are short: else
    plain Python doesn't end."""
    neighbours = random.choice([0, 1, 2, 8, 15]) if instance.capacity <= 5 else random.choice([8, 15])
    return ["VRPTW-CERT %d" % random.choice([1, 2]), "INSTANCE " + instance.name.decode(),
            "CUSTOMERS %d" % instance.count, "NEIGHBOURS %d" % neighbours, "BOUND 0.0", "TREE"] + tree + ["END"]


def plan_of(random, instance):
    """Routes through all customers, often a plan; sometimes with a customer left out, twice or unknown, or in another
    order."""
    routes, left = build(instance)
    routes = [list(route) for route in routes] + [[i] for i in left]
    spoil = random.randrange(10)
    route = random.choice(routes)
    if spoil == 0 and len(route) > 1:
        route.pop()
    elif spoil == 1:
        route.append(random.choice(random.choice(routes)))
    elif spoil == 2:
        route[random.randrange(len(route))] = instance.count + random.choice([1, 100])
    elif spoil == 3:
        route.reverse()
    elif spoil == 4 and len(routes) > 1:
        routes.remove(route)
        routes[0] += route
    elif spoil == 5:
        routes = [[i] for route in routes for i in route]
    return routes


def solution_of(routes, cost):
    return ["Route #%d: %s" % (k + 1, " ".join(str(i) for i in route)) for k, route in enumerate(routes)
            ] + ["Cost %d.%d" % divmod(cost, 10)]


def certificate_lines(random):
    """The lines of a random certificate, which no instance need accept."""
    count = random.choice([1, 2, 3, 25])
    return ["VRPTW-CERT %d" % random.choice([1, 2]), "INSTANCE " + random.choice(["T", "a" * 32, "x~!"]),
            "CUSTOMERS %d" % count, "NEIGHBOURS %d" % random.randrange(16),
            "BOUND %d.%d" % (random.choice([0, 12, 999999999999]), random.randrange(10)), "TREE"
            ] + tree_lines(random, count, [], random.randrange(5)) + ["END"]


def solution_lines(random):
    """The lines of a random solution, which no instance need have."""
    routes = [[random.choice([1, 2, 9999, random.randint(1, 400)]) for _ in range(random.randint(1, 5))]
              for _ in range(random.randint(1, 12))]
    return ["Route #%d: %s" % (k + 1, " ".join(str(i) for i in route)) for k, route in enumerate(routes)
            ] + ["Cost %d.%d" % (random.choice([0, 401, 999999999999]), random.randrange(10))]


def head_lines(count):
    return ["VRPTW-CERT 2", "INSTANCE T", "CUSTOMERS %d" % count, "NEIGHBOURS 8", "BOUND 0.0", "TREE"]


def deep_lines(depth):
    """A certificate of 25 customers whose tree is one path of splits with a leaf beside each."""
    leaf = "P" + " 0" * 25
    splits = ["S %d %d" % arc for arc in arcs_of(25)[:depth]]
    return head_lines(25) + splits + [leaf] * (depth + 1) + ["END"]


def wide_lines(leaves, count):
    """A certificate with so many leaves, level by level as far as they go."""
    arcs, leaf = arcs_of(count), "P" + " 0" * count
    lines = []

    def add(leaves, depth):
        if leaves == 1:
            lines.append(leaf)
            return
        lines.append("S %d %d" % arcs[depth])
        add(leaves - leaves // 2, depth + 1)
        add(leaves // 2, depth + 1)

    add(leaves, 0)
    return head_lines(count) + lines + ["END"]


# By the name, a certificate's lines, and the fault that was found by hand, or none. Six lines stand before a tree. In
# the full tree of depth 17 (131,072 leaves) 100,000 leaves and 100,011 splits stand before leaf 100,001.
LARGE = [("600 arcs on a path", lambda: deep_lines(600), ""),
         ("601 arcs on a path", lambda: deep_lines(601), "TooDeep line 607"),
         ("100,000 leaves", lambda: wide_lines(100_000, 25), ""),
         ("100,001 leaves", lambda: wide_lines(100_001, 25), "TooManyLeaves line 200007"),
         ("a full tree of depth 17", lambda: wide_lines(2 ** 17, 4), "TooManyLeaves line 200018")]

WRONG_WORDS = ["", "0", "00", "-0", "+5", "007", "-3", "1.0", "x", "S", "P", "END", "1000000000000", "1000000000001",
               "-1000000000001", "26", "10000", "99999999999999999999", "VRPTW-CERT", "3"]


def spoilt(random, lines):
    """The text of some lines with one thing wrong, or by chance nothing."""
    lines = [line.split(" ") for line in lines]
    line = random.choice(lines)
    kind = random.randrange(10)
    if kind == 0:
        line[random.randrange(len(line))] = random.choice(WRONG_WORDS)
    elif kind == 1:
        line.insert(random.randrange(len(line) + 1), random.choice(WRONG_WORDS))
    elif kind == 2:
        del line[random.randrange(len(line))]
    elif kind == 3:
        lines.insert(random.randrange(len(lines) + 1), list(random.choice(lines)))
    elif kind == 4:
        lines.remove(line)
    elif kind == 5:
        at, other = random.randrange(len(lines)), random.randrange(len(lines))
        lines[at] = list(lines[other])
    text = "".join(" ".join(line) + "\n" for line in lines).encode()
    place = random.randrange(len(text) + 1)
    if kind == 6:
        text = text[:place]
    elif kind == 7:
        text += random.choice([b"\n", b"x", b" "])
    elif kind == 8:
        text = text[:place] + random.choice([b" ", b"\r", b"\t", b"\0", b"\x80", b"-"]) + text[place:]
    return text
