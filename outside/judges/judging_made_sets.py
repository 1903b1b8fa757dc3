"""Certificates with sets that tools make: recheck takes them as they are, and refuses each with one thing wrong."""
import os

from judges.judging_layouts import text_of, tool
from judges.judging_sets import demand_checked, drawn, said_by_recheck
from judges.kind import Kind, program_by
from judges.running import demand, got, put
from reference import bounding, checking
from reference.instances import read
from reference.needs import need
from reference.optimum import least_cost
from reference.pricing import Pricing, leaves
from reference.set_texts import FIRST_SET, read_either
from reference.texts import shown
from tools.places import TOP
from tools.tool import quoted

# Files of bench/instances that are made for now and then.
FILES = ("c1_25", "r1_25", "rc1_25", "rc2_25")
# How many prices are changed until the bound is another one.
CHANGES = 30


def made(folder, command, text, *words):
    """What a maker prints for an instance; it notes nothing."""
    path = os.path.join(folder, "source")
    put(path, text)
    out, errors, status = tool(command, path, *words)
    demand((status, errors) == (0, ""), "%s: status %d, %r" % (command, status, errors))
    return out


def bound_of(instance, text):
    """The bound of a text's tree, by labels."""
    found = read_either(text)
    pricing = Pricing(instance, found.neighbours, 2)
    values = [pricing.value(*leaf) for leaf in leaves(instance.count, found.tree)]
    demand(None not in values, "a leaf with too many labels")
    return min(values)


def verdict(instance, bound):
    return "NO PLAN" if bound == instance.ceiling() + 1 else "BOUND " + shown(bound)


def with_words(text, at, change):
    """The text with the words of a line changed."""
    lines = text.decode().split("\n")
    words = lines[at].split(" ")
    change(words)
    lines[at] = " ".join(words)
    return "\n".join(lines).encode(), lines[at]


def demand_said(program, folder, instance, text, said):
    """What recheck says of a text, and the program's check."""
    came = said_by_recheck(folder, text_of(instance), text)
    demand(came == said, "recheck: %r, and %r is right" % (came, said))
    demand_checked(program, folder, text_of(instance), text, said)


def judge_need(program, folder, random, instance, text):
    """One need above what the set needs."""
    at = random.randrange(len(read_either(text).sets))
    most = need(instance, read_either(text).sets[at].customers)
    more = most + random.choice([1, 1, 1, 1000])
    other, _ = with_words(text, FIRST_SET - 1 + at, lambda words: words.__setitem__(1, str(more)))
    demand_said(program, folder, instance, other, "line %d: met a need of %d (NeedTooGreat), wanted at most %d" % (
        FIRST_SET + at, more, most))
    return "need"


def judge_order(program, folder, random, instance, text):
    """One set whose customers don't increase."""
    at, place = random.randrange(len(read_either(text).sets)), random.randint(2, 3)

    def change(words):
        if place == 3:
            words.append(words[-1])
        else:
            words[2], words[3] = words[3], words[2]
    other, line = with_words(text, FIRST_SET - 1 + at, change)
    demand_said(program, folder, instance, other, "line %d: met %s (BadSet), wanted a certificate with sets of "
                "docs/formats.md" % (FIRST_SET + at, quoted(line)))
    return "order"


def judge_price(program, folder, random, instance, text):
    """One price of a customer or a set changed, so that the bound is another one."""
    lines, bound = text.decode().split("\n"), read_either(text).bound
    places = [(at, place) for at, line in enumerate(lines) if at >= lines.index("TREE") and line[:2] in ("P ", "M ")
              for place in range(1 if line[0] == "P" else 2, line.count(" ") + 1, 1 if line[0] == "P" else 2)]
    first = random.choice("PM")
    chosen = random.sample(places, min(CHANGES, len(places)))
    for at, place in sorted(chosen, key=lambda one: lines[one[0]][0] != first):
        price = int(lines[at].split(" ")[place]) + random.choice([-1, 1]) * random.choice([5000, 100_000, 1_000_000])
        price = max(price, 1) if lines[at][0] == "M" else price
        other, _ = with_words(text, at, lambda words: words.__setitem__(place, str(price)))
        least = bound_of(instance, other)
        if least != bound:
            demand_said(program, folder, instance, other, "line 5: met a bound of %s, wanted that of the tree, %s" % (
                shown(bound), shown(least)))
            return "price of a %s" % ("set" if lines[at][0] == "M" else "customer")
    return "no price that counts"


def judge_made(program, folder, random):
    """A text of the maker: as asked for and each time the same, with the bound of its tree; then one thing wrong."""
    if random.randrange(8):
        instance = drawn(random, 1, 6)
        text = text_of(instance)
    else:
        with open(os.path.join(TOP, "bench", "instances", random.choice(FILES) + ".txt"), "rb") as file:
            text = file.read()
        instance = read(text)
    count = {"sets": random.randint(0, 9), "leaves": random.randint(1, min(9, 1 << instance.count * 2)),
             "neighbours": random.choice([0, 2, 8]) if instance.capacity <= 5 else 8, "seed": random.randrange(10 ** 6)}
    words = [word for name, value in count.items() for word in ("--" + name, str(value))]
    certificate = made(folder, "workshop/set_maker", text, *words)
    demand(certificate == made(folder, "workshop/set_maker", text, *words), "another text the second time")
    found = read_either(certificate)
    demand(len(found.sets) == (count["sets"] if instance.count > 1 else 0)
           and sum(1 for _ in leaves(instance.count, found.tree)) == count["leaves"], "as many as %r" % count)
    if instance.count <= 6:
        bound, cost = checking.tree_bound(instance, found, bounding.least_by_routes), least_cost(instance)
        demand(found.bound == bound and (cost is None or bound <= cost), "a bound of %d, by all routes %d, and a plan "
               "costs %r" % (found.bound, bound, cost))
    demand_said(program, folder, instance, certificate, verdict(instance, found.bound))
    wrong = [judge_price] + ([judge_need, judge_order] if found.sets else [])
    return random.choice(wrong)(program, folder, random, instance, certificate)


def judge_priced(program, folder, random):
    """A certificate of set_prices: its bound is no higher than the least cost of all plans, and no lower than without
    sets; recheck says the same line of it."""
    instance = drawn(random, 2, 6)
    cost, paths, bounds = least_cost(instance), [os.path.join(folder, name) for name in ("source", "priced")], []
    put(paths[0], text_of(instance))
    neighbours = random.choice([0, 0, 1, 8]) if instance.capacity <= 5 else random.choice([1, 8])
    words = ["--seed", str(random.randrange(100)), "--neighbours", str(neighbours)]
    for rounds in (["--rounds", "0"], []):
        out, errors, status = tool("set_prices", *paths, *words, *rounds)
        demand(status == 0 and all(line.startswith("outside/set_prices: round ") for line in errors.splitlines()),
               "set_prices: status %d, %r" % (status, errors))
        found = read_either(got(paths[1]))
        demand(out.decode() == verdict(instance, found.bound) + "\n", "%r, and a bound of %d" % (out, found.bound))
        demand_said(program, folder, instance, got(paths[1]), verdict(instance, found.bound))
        bounds.append(found.bound)
    bound = checking.tree_bound(instance, found, bounding.least_by_routes)
    demand(bounds[0] <= bounds[1] == bound and (cost is None or bound <= cost), "bounds of %r, by all routes %d, and a "
           "plan costs %r" % (bounds, bound, cost))
    told = "the cost" if bound == cost else "below it" if cost is not None else "no plan"
    return "%s, %s" % (told, "more than without sets" if bounds[0] < bounds[1] else "as without sets")


KINDS = {
    "made_sets": Kind("texts of set_maker: taken by recheck, and refused with a need, a price or an order changed", 8,
                      program_by(judge_made)),
    "priced_sets": Kind("texts of set_prices: at most the least cost of all plans, and the line of recheck", 6,
                        program_by(judge_priced)),
}
