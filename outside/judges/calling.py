"""Calls of the library in which each allocation is refused in turn, by the program `instruments`.

It makes a call twice, and prints `ready` and what came of each. Where no allocation is refused, both answers are those
that stand here, by hand or by the reference. Where one is, that call may say so, with the state that it leaves, and the
call after it answers as if nothing had been refused. What `solve` answers is judged by its texts."""
import functools
from collections import Counter

from cases.rows import DEPOT, INSTANCES, certificate_text, instance_text
from judges.kind import Kind
from judges.refused_solving import ANSWERED, SIZES, judge_solved
from judges.refusing import counted, variables_of
from judges.running import Disagreement, demand, run, shown
from reference import bounding
from reference.building import build
from reference.instances import plan_cost, read
from reference.moving import first_gain
from reference.texts import read_certificate

# Seconds that a run may take, and how many allocations a call may have.
LONGEST = 60
MOST = 100_000

CROSSED = read(instance_text(2, 4, DEPOT, "1 10 0 1 0 1000 0\n2 20 0 1 0 1000 0\n3 0 10 1 0 1000 0\n"
                             "4 0 20 1 0 1000 0\n").encode())
CROSSED_ROUTES = [[1, 4], [3, 2]]
NEAR = read(INSTANCES["near"].encode())
STEPS = [64_000, 32_000, 16_000]
CERTIFICATE = certificate_text("1", "3", "8", "401.0", "S 1 2\nP 0 2010000 2000000\nS 2 1\nP 0 2010000 2000000\n"
                               "P 1990000 2000000 20000\n")


class Call:
    """What a call answers, and answers again; and what it may say in their place where an allocation is refused."""

    def __init__(self, first, second, refused_first, refused_second=()):
        self.first, self.second, self.refused = first, second, (list(refused_first), list(refused_second))


def alike(answer, refused):
    """A call that answers the same again."""
    return Call(answer, answer, refused, refused)


def plan_line(what, routes):
    return "%s %d %s" % (what, plan_cost(CROSSED, routes), routes)


def built():
    routes, left = build(CROSSED)
    demand(not left, "customers are left")
    return plan_line("Whole", [list(route) for route in routes])


def descended():
    """The routes that a descent comes to, one list after each move."""
    found = [CROSSED_ROUTES]
    while first_gain(CROSSED, found[-1]) is not None:
        found.append(first_gain(CROSSED, found[-1]))
    return found


def improved():
    """The best prices after each number of steps. No route costs less than nothing here, so that each step raises all
    prices."""
    found, price = [], 0
    for step in [0] + STEPS:
        price += step
        prices = [price, price]
        least = bounding.least_by_routes(NEAR, bounding.Region(2), prices, 1)
        value = bounding.leaf_value(NEAR, bounding.Region(2), prices, 1, 2, bounding.least_by_routes)
        demand(least >= 0, "a step below zero")
        if not found or value > found[-1][0]:
            found.append((value, prices))
    return ["best %d %s" % best for best in found]


def written(fault, text):
    return '%s "%s"' % (fault, text.replace("\n", "\\n"))


def read_line():
    """The certificate as it is shown, by the reference's reader."""
    found = read_certificate(CERTIFICATE.encode())

    def nodes(tree):
        if tree[0] == "P":
            return ["Leaf(%s)" % tree[1]]
        return ["Split { from: %d, to: %d }" % tree[1]] + nodes(tree[2]) + nodes(tree[3])

    head = "version: One, name: %s, size: %d, neighbours: %d, bound: Tenths { count: %d }" % (
        list(found.name), found.count, found.neighbours, found.bound)
    return "Ok Cert { parts: CertParts { %s, nodes: [%s] } }" % (head, ", ".join(nodes(found.tree)))


@functools.lru_cache(None)
def calls_of():
    """All calls by name."""
    steps, better = descended(), improved()
    done = plan_line("Ok", steps[-1])
    plan_back, prices_back = "back 200 [[1, 2]]", "back 200 [100000, 100000]"
    children_back, full = "back 200 [0, 0] back 100 [0, 0]", "events 16 cost 300 bound 100"
    return {
        "build": alike(built(), ["Memory"]),
        "apply": alike(plan_line("Ok", [[1, 2], [3, 4]]), [plan_line("Memory back", CROSSED_ROUTES)]),
        "descend": Call(done, done, [plan_line("Memory held", routes) for routes in steps],
                        [plan_line("Memory held", steps[-1])]),
        "least": alike("Ok Some(-1000000) [2, 1, 2]", ["Memory"]),
        "improve": alike(better[-1], better),
        "offer": Call("Better 300 events 17 cost 200 bound 100",
                      "NotBetter 200 [[1, 2]] events 18 cost 200 bound 100",
                      ["Memory %s %s" % (plan_back, full)], ["Memory %s events 17 cost 200 bound 100" % plan_back]),
        "reprice": Call("Ok events 17 cost 300 bound 200", "NotHigher %s events 17 cost 300 bound 200" % prices_back,
                        ["Memory %s %s" % (prices_back, full)]),
        "split": Call("Ok 3 4 events 17 cost 300 bound 100", "NotALeaf %s events 17 cost 300 bound 100" % children_back,
                      ["Memory %s %s" % (children_back, full)]),
        "read": alike(read_line(), ["Memory"]),
        "write": alike(written("Ok", CERTIFICATE),
                       [written("Device", CERTIFICATE[:size]) for size in range(len(CERTIFICATE))]),
        "check": alike("Ok Best { cost: Tenths { count: 4010 } }", ["Memory"]),
    }


NAMES = ["build", "apply", "descend", "least", "improve", "offer", "reprice", "split", "read", "write", "check"]
NAMES += list(SIZES)
BEFORE, AS_USUAL = "before the call", "as usual"
# What a run may come to that no refusal in a call can be seen from.
UNMET = {BEFORE, AS_USUAL, ANSWERED}


def judge_call(program, folder, library, number):
    """A call with each of its allocations refused in turn, until a run meets no refusal. Answers how many were."""
    name, came = NAMES[number], Counter()
    for allocation in range(1, MOST):
        variables = variables_of(folder, library, "one", allocation)
        out, errors, status = run([program, "call", name], variables, (), LONGEST)
        told = "%s, allocation %d: %r" % (name, allocation, (out, errors, status))
        lines, refused = shown(out).splitlines(), counted(folder)[2]
        if refused and not lines:
            demand(status == 1, told)
            came[BEFORE] += 1
            continue
        demand(status == 0 and lines[0] == "ready" and len(lines) == 3, told)
        found = judge_lines(name, lines[1:], refused, told)
        if refused == 0:
            demand(set(came) - UNMET, "%s: no allocation was refused" % name)
            return "%s: %s" % (name, ", ".join("%d %s" % (came[what], what) for what in sorted(came)))
        came[found] += 1
    raise Disagreement("%s: more than %d allocations" % (name, MOST))


def judge_lines(name, lines, refused, told):
    """What came of the call that was refused, if one was. Answers it in a word or two."""
    if name in SIZES:
        return judge_solved(name, lines, refused, told)
    call = calls_of()[name]
    if refused == 0:
        demand(lines == [call.first, call.second], told)
    return judge_both(call, lines[0], lines[1], told)


def judge_both(call, first, second, told):
    """One of two calls may have been refused: the first, and then the second answers as the first would have."""
    if first != call.first:
        demand(first in call.refused[0] and second == call.first, told)
        return "refused"
    if second != call.second:
        demand(second in call.refused[1], told)
        return "refused"
    return AS_USUAL


KINDS = {
    "calls": Kind("calls of the library by instruments, each allocation refused in turn", len(NAMES),
                  lambda programs, folder, random, seed:
                      judge_call(programs.instruments, folder, programs.library, seed),
                  is_fixed=True, of_library=True, refuses=True),
}
