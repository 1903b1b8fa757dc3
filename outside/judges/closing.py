"""Runs of `solve --close` on few customers: the least cost is found by going through all plans, and the answer has to
be that one, with a bound that reaches it."""
from cases.random_texts import instance_words, laid_out
from cases.shapes import SHAPES
from judges.kind import Kind, program_by
from judges.running import Disagreement, demand, run_check, solve
from judges.solving import is_overloaded, least
from reference import checking
from reference.bounding import TooLong
from reference.instances import read
from reference.optimum import least_cost
from reference.set_texts import is_of_sets, read_either
from reference.texts import TextFault, read_solution

MOST_LEAVES = 100_000
# As many leaves suffice for three customers.
FOR_THREE = 4097
# A certificate with more leaves is judged by the program's check and its head alone.
FEW_LEAVES = 300
USAGE = [["--leaves", "0"], ["--leaves", "100001"], ["--leaves", "-1"], ["--leaves", "x"], ["--leaves", ""],
         ["--neighbours", "16"]]


def judge_close(program, folder, random):
    """An instance and options. Answers the line's first word."""
    kind = random.randrange(60)
    if kind == 0:
        return judge_usage(program, folder, random)
    if kind == 1:
        return judge_many(program, folder, random)
    count = random.choice([1, 2, 3, 3, 4, 5, 6, 7, 8])
    text = laid_out(random, random.choice(SHAPES)(random, count))
    leaves = random.choice([None, None, 1, 2, 3, random.randint(1, 60), FOR_THREE, MOST_LEAVES])
    neighbours = random.choice([None, None, random.randint(0, 15)])
    try:
        return judge_closed(program, folder, random, text, leaves, neighbours)
    except (Disagreement, TextFault) as found:
        raise Disagreement("%s\n  leaves: %s, neighbours: %s\n  instance: %s\n " % (
            found, leaves, neighbours, " ".join(text.decode().split())))


def most_leaves(count):
    """A tree in which each arc is decided on each path; none has more leaves."""
    return 2 ** (count * (count + 1))


def options_of(leaves, neighbours):
    return ["--close"] + ([] if leaves is None else ["--leaves", str(leaves)]
                          ) + ([] if neighbours is None else ["--neighbours", str(neighbours)])


def judge_closed(program, folder, random, text, leaves, neighbours):
    came = solve(program, folder, text, options_of(leaves, neighbours))
    out, errors, status, solution, certificate = came
    instance, most = read(text), MOST_LEAVES if leaves is None else leaves
    if status == 7:
        demand(came == ("", "vrptw: limit: LeafLimit\n", 7, b"", b""), "close: %r" % (came,))
        demand(most < min(MOST_LEAVES, most_leaves(instance.count)), "LeafLimit with %d leaves" % most)
        judge_more(program, folder, text, most, neighbours)
        return "LeafLimit"
    found = read_either(certificate)
    demand(is_of_sets(certificate) == is_overloaded(instance), "a certificate of the wrong kind")
    judge_answer(instance, out, errors, status, solution, found)
    count = leaves_of(found.tree)
    demand(count <= most, "%d leaves, and %d are allowed" % (count, most))
    demand(found.neighbours == (8 if neighbours is None else neighbours), "the certificate's neighbours")
    judge_same(program, folder, random, text, came, count, neighbours)
    told = (out, errors, status)
    checked = run_check(program, folder, text, certificate, solution or None)
    demand(checked == told, "close: %r, check: %r" % (told, checked))
    return out.split()[0] + by_this_folder(text, certificate, solution or None, told, count)


def judge_answer(instance, out, errors, status, solution, found):
    """The least cost over all plans is the cost and the bound; where there is no plan, that is said."""
    demand((errors, status, found.version) == ("", 0, 2), "close: %r" % ((out, errors, status, found.version),))
    optimum = least_cost(instance)
    if optimum is None:
        demand((out, solution) == ("NO PLAN\n", b""), "no plan, and %r" % out)
        demand(found.bound == instance.ceiling() + 1, "NO PLAN with the bound %d" % found.bound)
        return
    demand(out == "BEST %d.%d\n" % divmod(optimum, 10), "optimum %d, and %r" % (optimum, out))
    routes, cost = read_solution(solution)
    demand(cost == optimum == found.bound, "optimum %d, cost %d, bound %d" % (optimum, cost, found.bound))
    demand(checking.plan_defect(instance, routes) is None, "the plan's defect")


def judge_same(program, folder, random, text, came, count, neighbours):
    """Nothing is left to threads or to the options of other runs; as many leaves as the tree has suffice, and one
    fewer doesn't."""
    others = random.sample([["--seed", "7"], ["--turns", "1"], ["--labels", "1"], ["--searchers", "3"],
                            ["--bounders", "32"]], 2)
    again = solve(program, folder, text, options_of(count, neighbours) + others[0] + others[1])
    demand(again == came, "close: %r, with %d leaves and %r: %r" % (came, count, others, again))
    cuts = random.choice([["--sets", str(random.randint(1, 1000))], ["--rows", str(random.randint(1, 1000))], ["--cuts"]])
    *said, priced = solve(program, folder, text, options_of(count, neighbours) + cuts)
    demand((*said, without_cuts(priced)) == (*came[:-1], without_cuts(came[-1])), "close: %r, with %r: %r" % (came, cuts, priced))
    if count > 1:
        fewer = solve(program, folder, text, options_of(count - 1, neighbours))
        demand(fewer == ("", "vrptw: limit: LeafLimit\n", 7, b"", b""), "%d leaves, one fewer: %r" % (count, fewer))


def without_cuts(certificate):
    """The certificate with sets that one with rows is whose rows have no prices, and the one of version 2 where no set
    has one, either; all beside its head."""
    found = certificate.replace(b"VRPTW-ROWS 1\n", b"VRPTW-SETS 1\n", 1).replace(b"\nQ\n", b"\n")
    if b"\nM 1 " in found:
        return found
    return found.replace(b"VRPTW-SETS 1\n", b"VRPTW-CERT 2\n", 1).replace(b"\nM\n", b"\n")


def judge_more(program, folder, text, most, neighbours):
    """Where the limit was met the tree has more leaves than that."""
    certificate = solve(program, folder, text, options_of(None, neighbours))[4]
    count = leaves_of(read_either(certificate).tree) if certificate else most + 1
    demand(count > most, "LeafLimit with %d leaves, and %d suffice" % (most, count))


def by_this_folder(text, certificate, solution, told, count):
    """The reference's checker says the same; what is added to the answer's name where it would take too long."""
    if count > FEW_LEAVES:
        return ", the leaves by the program alone"
    try:
        checked = checking.check(text, certificate, solution, least)
    except TooLong:
        return ", the leaves by the program alone"
    demand(checked == told, "close: %r, reference: %r" % (told, checked))
    return ""


def leaves_of(tree):
    """How many leaves a tree has."""
    count, rest = 0, [tree]
    while rest:
        node = rest.pop()
        count += node[0] == "P"
        rest += [] if node[0] == "P" else node[2:]
    return count


def judge_usage(program, folder, random):
    """Wrong words leave both files as they were, here not made."""
    text = laid_out(random, instance_words(random, 2))
    words = ["--close"] + random.choice(USAGE)
    out, errors, status, solution, certificate = solve(program, folder, text, words)
    demand((out, status, solution, certificate) == ("", 2, None, None) and errors, "%r: %r" % (words, (out, status)))
    return "wrong words"


def judge_many(program, folder, random):
    """More than 24 customers are refused, whatever the leaves; 24 aren't."""
    count = random.choice([24, 25, 26, 100, 400])
    text = laid_out(random, instance_words(random, count))
    leaves = random.choice([1, 3])
    came = solve(program, folder, text, options_of(leaves, None))
    if count > 24:
        demand(came == ("", "vrptw: limit: TooLarge\n", 7, b"", b""), "%d customers: %r" % (count, came))
        return "TooLarge"
    limit = came == ("", "vrptw: limit: LeafLimit\n", 7, b"", b"")
    demand(limit or came[1:3] == ("", 0), "24 customers: %r" % (came,))
    if came[2] == 0:
        checked = run_check(program, folder, text, came[4], came[3] or None)
        demand(checked == came[:3], "close: %r, check: %r" % (came[:3], checked))
    return "24 customers"


KINDS = {
    "close": Kind("solve --close, 1 to 8 customers, drawn limits: the least cost of all plans", 24,
                  program_by(judge_close)),
}
