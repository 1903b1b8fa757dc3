"""Runs of `solve --tree`: from a tree that was cut at random the bound is no lower and the tree grows on, by all of its
open leaves or by a part of them; all parts are joined; a text that is none of the instance is told as the check tells
it."""
import os
from collections import Counter

from cases.grown_trees import cut, leaf_count
from judges.judging_joins import like, spoilt, text_of, whole_of
from judges.judging_layouts import tool
from judges.kind import Kind, program_by
from judges.running import demand, put, run_check, solve
from reference import bounding, checking
from reference.set_texts import SetCertificate, read_either
from reference.texts import read_solution

# What all prices of sets at a leaf may come to in a run, in grains.
MOST_PRICES = 5 * 10 ** 11


def tree_of(random, instance, whole):
    """A tree cut from a whole one, or that itself, with its bound."""
    has_sets = isinstance(whole, SetCertificate)
    tree = whole.tree if random.randrange(3) == 0 else cut(random, whole.tree, has_sets)
    found = like(whole, tree, list(whole.sets))
    if not has_sets:
        found.version = random.choice([1, 2, 2])
    found.bound = checking.tree_bound(instance, found, bounding.least_by_labels)
    return found


def is_unfit(tree):
    """Whether a leaf has prices of sets as no run gives them."""
    if tree[0] == "S":
        return is_unfit(tree[2]) or is_unfit(tree[3])
    sets = tree[2] if len(tree) > 2 else ()
    twice = Counter(one.customers for one in sets if one.price)
    return max(twice.values(), default=0) > 1 or sum(one.price for one in sets) > MOST_PRICES


def is_grown(tree, other):
    """Whether a tree has all splits of another one."""
    return tree[0] == "P" or other[0] == "S" and tree[1] == other[1] and all(
        map(is_grown, tree[2:], other[2:]))


def options_of(random, folder, plan):
    """Options besides: turns, a part of the open leaves, a start."""
    options = ["--turns", str(random.randint(1, 5)), "--searchers", "1", "--bounders", str(random.randint(1, 2)),
               "--sets", str(random.choice([0, 0, 3, 20])), "--rows", str(random.choice([0, 0, 3, 20]))]
    if random.randrange(2):
        count = random.choice([1, 2, 3, 10_000])
        options += ["--part", "%d/%d" % (random.randint(1, count), count)]
    if plan and random.randrange(2):
        put(os.path.join(folder, "start"), plan)
        options += ["--start", os.path.join(folder, "start")]
    return options


def judge_tree(program, folder, random):
    """A run from a tree, whole or spoilt."""
    instance, text, whole, plan = whole_of(program, folder, random)
    found, way = tree_of(random, instance, whole), "whole"
    held = [text_of(found)]
    if random.randrange(3) == 0:
        way = spoilt(random, [found], held)
    put(os.path.join(folder, "tree"), held[0])
    options = options_of(random, folder, plan)
    came = solve(program, folder, text, options + ["--tree", os.path.join(folder, "tree")])
    right = checking.check(text, held[0], None, bounding.least_by_labels)
    told = "%s: %r by %s from %r of %r" % (way, came, options, held[0], text)
    if right[2] == 5:
        demand(came == ("",) + right[1:] + (b"", b""), "%s, and the check says %r" % (told, right))
        return "%s: refused" % way
    given = read_either(held[0])
    if is_unfit(given.tree):
        demand(came == ("", "vrptw: limit: LabelLimit\n", 7, b"", b""), told)
        return "unfit"
    if given.version != 1 and random.randrange(3) == 0:
        # What a run writes is of version 2, and join takes texts of one version.
        return judge_parts(program, folder, random, text, given, told)
    return judge_answer(program, folder, text, given, came, options, told)


def judge_parts(program, folder, random, text, given, told):
    """All parts of a tree, and the certificate that join makes of theirs: no bound of a part is higher."""
    tree, count, bounds, paths = os.path.join(folder, "tree"), random.choice([2, 3]), [], []
    for place in range(1, count + 1):
        options = ["--turns", "3", "--searchers", "1", "--bounders", "1", "--tree", tree]
        came = solve(program, folder, text, options + ["--part", "%d/%d" % (place, count)])
        judge_answer(program, folder, text, given, came, options, told)
        bounds.append(read_either(came[4]).bound)
        paths.append(os.path.join(folder, "part%d" % place))
        put(paths[-1], came[4])
    put(os.path.join(folder, "instance"), text)
    words = [os.path.join(folder, "instance"), tree, *paths, "--check", "--program", program, "--jobs", "1"]
    out, errors, status = tool("join", *words)
    demand(status == 0 and read_either(out).bound >= max(bounds), "%s: parts of %s, joined: status %d, %r, %r" % (
        told, bounds, status, errors, out))
    return "parts joined"


def judge_answer(program, folder, text, given, came, options, told):
    """What was answered: the bound and the tree are no less than those given, and the check says the same line."""
    out, errors, status, solution, certificate = came
    demand(errors == "" and status in (0, 1) and certificate, told)
    found = read_either(certificate)
    demand(found.bound >= given.bound and found.neighbours == given.neighbours, told)
    demand(is_grown(given.tree, found.tree) and leaf_count(found.tree) >= leaf_count(given.tree), told)
    checked = run_check(program, folder, text, certificate, solution or None)
    line = out if solution or not out.startswith("OPEN") else out.replace("OPEN", "BOUND", 1)
    demand(checked == (line, "", status), "%s, and the check says %r" % (told, checked))
    if "--start" in options:
        with open(options[options.index("--start") + 1], "rb") as start:
            demand(read_solution(solution)[1] <= read_solution(start.read())[1], told)
    return "%s%s" % (out.split()[0], " by a part" if "--part" in options else "")


KINDS = {
    "trees": Kind("solve --tree, from trees cut at random and from texts that are none: the bound is no lower", 30,
                  program_by(judge_tree)),
}
