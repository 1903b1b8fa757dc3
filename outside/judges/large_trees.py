"""The check of certificates with many leaves, whole and with one thing changed.

What is right: the bound that the solver printed, which it found by another rule of labels than the check, is the least
value of all leaves. Where a leaf changes, its values before and after are found here, by labels in Python, from the
definitions. The least value of the others is the bound, unless only leaves that change have it: where no other one of
ten does, the run is left out. What comes of a line that is away the reference's reader says. A leaf with too many
labels is left out, too."""
import functools
import os
import random as randomness
import tempfile
import time
from collections import Counter
from concurrent.futures import ProcessPoolExecutor

from judges.running import run_check, solve
from reference import pricing
from reference.instances import read
from reference.texts import TextFault, read_certificate, shown
from tools.places import TOP
from tools.tool import Refused, content

# How many leaves are valued to find another one with the least value.
MOST_SOUGHT = 10
KINDS = ["whole", "bound", "price", "price", "price", "swapped", "swapped", "joined", "joined", "dropped"]
# Where the certificate of a run that doesn't agree stays.
KEPT = os.path.join(TOP, "out", "large_trees")


class LeftOut(Exception):
    """What is right isn't known."""


class Case:
    """A certificate that was written, with its leaves."""

    def __init__(self, path, text):
        with open(path, "rb") as file:
            self.instance_text = file.read()
        self.instance, self.lines = read(self.instance_text), text.split(b"\n")
        self.found = read_certificate(text)
        self.pricing = pricing.Pricing(self.instance, self.found.neighbours, self.found.version)
        # The region and the prices of each leaf, and the line that it stands in.
        self.leaves = list(pricing.leaves(self.found.count, self.found.tree))
        self.places = [at for at, line in enumerate(self.lines) if line.startswith(b"P ")]
        self.values = {}

    def value(self, region, prices):
        found = self.pricing.value(region, prices)
        if found is None:
            raise LeftOut
        return found

    def value_of(self, leaf):
        """The value of a leaf as it was written; None where it has too many labels."""
        if leaf not in self.values:
            self.values[leaf] = self.pricing.value(*self.leaves[leaf])
        return self.values[leaf]

    def others(self, *changed):
        """The least value of all leaves but these."""
        bound, values = self.found.bound, [self.value_of(leaf) for leaf in changed]
        if None not in values and min(values) > bound:
            return bound
        rest = [leaf for leaf in range(len(self.leaves)) if leaf not in changed]
        rest.sort(key=lambda leaf: leaf not in self.values)
        new = 0
        for leaf in rest:
            new += leaf not in self.values
            if new > MOST_SOUGHT:
                break
            if self.value_of(leaf) == bound:
                return bound
        raise LeftOut


@functools.lru_cache(None)
def case_of(path, certificate):
    with open(certificate, "rb") as file:
        return Case(path, file.read())


def price_line(prices):
    return ("P " + " ".join(str(price) for price in prices)).encode()


def changed(random, case, kind):
    """The lines after a change, and the bound of their tree."""
    lines, bound = list(case.lines), case.found.bound
    leaf = random.randrange(len(case.leaves))
    region, prices = case.leaves[leaf]
    if kind == "price":
        prices = list(prices)
        prices[random.randrange(len(prices))] += random.choice([-1, 1, -1000, 1000, -20000, 20000])
        lines[case.places[leaf]] = price_line(prices)
        bound = min(case.others(leaf), case.value(region, prices))
    elif kind == "swapped":
        other = random.randrange(len(case.leaves))
        there, theirs = case.leaves[other]
        lines[case.places[leaf]], lines[case.places[other]] = price_line(theirs), price_line(prices)
        bound = min(case.others(leaf, other), case.value(region, theirs), case.value(there, prices))
    elif kind == "joined":
        at = random.choice(splits_of_leaves(case))
        first = case.places.index(at + 1)
        region, prices = case.leaves[first]
        last = lines[at].split()
        above = pricing.Region(region.count, region.required - {(int(last[1]), int(last[2]))}, region.forbidden)
        kept = random.choice([first, first + 1])
        bound = min(case.others(first, first + 1), case.value(above, case.leaves[kept][1]))
        lines[at:at + 3] = [case.lines[case.places[kept]]]
    elif kind == "dropped":
        del lines[random.randrange(lines.index(b"TREE") + 1, lines.index(b"END"))]
    return lines, bound


def splits_of_leaves(case):
    """The lines of splits whose children are leaves."""
    found = [at for at in range(len(case.lines) - 2) if case.lines[at].startswith(b"S ")
             and case.lines[at + 1].startswith(b"P ") and case.lines[at + 2].startswith(b"P ")]
    if not found:
        raise LeftOut
    return found


def right(random, kind, lines, bound):
    """The text with a bound, and what the check says of it."""
    printed = bound
    if kind == "bound" or kind in ("price", "swapped", "joined") and random.randrange(2):
        printed = max(0, bound + random.choice([-1, 1]))
    lines[4] = b"BOUND " + shown(printed).encode()
    text = b"\n".join(lines)
    try:
        read_certificate(text)
    except TextFault as fault:
        return text, ("", "vrptw: certificate: %s\n" % fault, 5)
    if printed != bound:
        return text, ("", "vrptw: check: BoundDiffers %s %s\n" % (shown(printed), shown(bound)), 5)
    return text, ("BOUND %s\n" % shown(bound), "", 1)


def judge(task):
    """One run; answers what came of it, and what differs."""
    program, folder, path, certificate, seed = task
    random = randomness.Random(seed)
    kind = random.choice(KINDS)
    try:
        case = case_of(path, certificate)
        lines, bound = changed(random, case, kind)
    except LeftOut:
        return "left out: " + kind, None
    text, wanted = right(random, kind, lines, bound)
    with tempfile.TemporaryDirectory(dir=folder) as own:
        came = run_check(program, own, case.instance_text, text, None)
    if came == wanted:
        return kind, None
    os.makedirs(KEPT, exist_ok=True)
    with open(os.path.join(KEPT, "%s_%d" % (os.path.basename(certificate), seed)), "wb") as file:
        file.write(text)
    return kind, "%s, seed %d, %s: %r, and %r is right" % (certificate, seed, kind, came, wanted)


def written(program, folder, paths, turns):
    """A certificate of each file with each number of turns; those of one leaf only show the whole."""
    for path, text in [(path, content(path)) for path in paths]:
        for number in turns:
            options = [] if number == "default" else ["--turns", number]
            status, certificate = solve(program, folder, text, options)[2:5:2]
            if status not in (0, 1):
                continue
            name = os.path.join(folder, "%s_%s" % (os.path.basename(path)[:-4], number))
            with open(name, "wb") as file:
                file.write(certificate)
            yield path, name


def judged(given, pool, folder, cases, end):
    """Judges until the time is over; answers a kind and what differs, or None, of each run."""
    seed = given.seed
    while time.time() < end:
        tasks = [(given.program, folder, *cases[(seed + i) % len(cases)], seed + i) for i in range(8 * given.jobs)]
        seed += len(tasks)
        yield from pool.map(judge, tasks)


def judge_trees(given):
    """Writes certificates for half of the time at most, and judges their check. Answers how many runs don't agree."""
    end, counts, wrong, cases = time.time() + 60 * given.minutes, Counter(), 0, []
    with tempfile.TemporaryDirectory() as folder, ProcessPoolExecutor(given.jobs) as pool:
        for case in written(given.solver or given.program, folder, given.files, given.turns):
            cases.append(case)
            if time.time() > end - 60 * given.minutes / 2:
                break
        if not cases:
            raise Refused("%s: met no certificate of it, wanted files that vrptw solves" % given.files[0])
        for kind, differs in judged(given, pool, folder, cases, end):
            counts[kind] += 1
            if differs:
                wrong += 1
                print(differs, flush=True)
    for kind, count in sorted(counts.items()):
        print("%7d %s" % (count, kind))
    print("%d certificates, %d runs, %d disagreements" % (len(cases), sum(counts.values()), wrong))
    return wrong
