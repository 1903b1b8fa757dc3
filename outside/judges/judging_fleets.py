"""Runs of `solve` where the fleet is as small as it may be, or smaller: it has to tell that there is no plan."""
import os
import time

from cases.classes import CLASSES, class_words
from cases.edges import edge_words
from cases.random_texts import laid_out
from judges.closing import FEW_LEAVES, judge_closed, leaves_of
from judges.judging_layouts import tool
from judges.kind import Kind, program_by
from judges.running import Disagreement, demand, run_check, solve
from judges.solving import DEFAULTS, judge_run
from reference import checking
from reference.instances import read
from reference.optimum import least_cost
from reference.pricing import Pricing, leaves
from reference.set_texts import read_either
from reference.texts import TextFault, read_solution
from tools.reasons import reasons

# How many customers a file of a class has, and how many turns are made once a vehicle is taken away.
CUSTOMERS, TURNS = 25, 1000
# The most customers whose plans are all gone through.
MOST_CUSTOMERS = 9
# A run that plain arithmetic refutes takes less than a second of a processor, on a busy machine some more.
MOST_SECONDS = 10
# The greatest capacity and demand.
MOST_LOAD, MOST_DEMAND = 10_000, 10_000
# Where the fleet stands among an instance's words.
FLEET = 4


def judge_fleets(program, folder, random):
    """Few customers, mostly with the defaults. Answers how the run was made and the line's first word."""
    text = laid_out(random, edge_words(random, random.randint(1, MOST_CUSTOMERS)))
    words = random.choice([[]] * 6 + [["--close"], ["--turns", str(random.randint(1, 400))]])
    try:
        if words[:1] == ["--close"]:
            return "--close " + judge_closed(program, folder, random, text, None, None)
        return judge_fleet(program, folder, random, text, words)
    except (Disagreement, TextFault) as found:
        raise Disagreement("%s\n  options: %s\n  instance: %s\n " % (
            found, " ".join(words), " ".join(text.decode().split())))


def judge_fleet(program, folder, random, text, words):
    """By the optimum `NO PLAN` comes exactly where there is no plan, and with the defaults never `OPEN`."""
    settings = {**DEFAULTS, "turns": int(words[1])} if words else DEFAULTS
    came = judge_run(program, folder, text, words, settings, True)
    demand(came != "OPEN" or words, "OPEN with the defaults")
    instance = read(text)
    told = [reason for reason in reasons(instance) if reason.proves]
    demand(not told or least_cost(instance) is None, "a plan, though %s" % told)
    if came == "NO" and random.randrange(4) == 0:
        judge_why(folder)
    return " ".join(words[:1] + [came])


def judge_why(folder):
    """Why there is no plan is told, since the certificate proves it."""
    paths = [os.path.join(folder, name) for name in ("instance", "certificate")]
    out, errors, status = tool("why", *paths)
    demand((errors, status) == ("", 0) and b"the certificate proves it" in out, "why: %r" % ((out, errors, status),))


def judge_tight(program, folder, random):
    """A file after one of the classes, with one vehicle fewer than its plan needs, again and again until there is no
    plan: none of the runs ends in `OPEN`. Answers the class and the last line's first word."""
    name = random.choice(sorted(CLASSES))
    words, options, added = class_words(random, name, CUSTOMERS), [], ""
    while True:
        text = laid_out(random, words)
        try:
            said, used, left_out = judge_answer(program, folder, text, options)
        except (Disagreement, TextFault) as found:
            raise Disagreement("%s, %d customers, %s vehicles, %s: %s" % (
                name, CUSTOMERS, words[FLEET], " ".join(options) or "defaults", found))
        added = left_out or added
        if used < 2:
            return "%s %s%s" % (name, said, added)
        words[FLEET], options = str(used - 1), ["--turns", str(TURNS)]


def judge_answer(program, folder, text, options):
    """One run: its line's first word, the number of routes, and what is added where leaves were left out."""
    out, errors, status, solution, certificate = solve(program, folder, text, options)
    demand((errors, status) in (("", 0), ("", 1)), "solve: %r" % ((out, errors, status),))
    demand(out.split()[0] in ("BEST", "GAP", "NO"), "solve: %r" % out)
    demand((solution == b"") == (out == "NO PLAN\n"), "a solution's text beside %r" % out)
    told = (out, errors, status)
    checked = run_check(program, folder, text, certificate, solution or None)
    demand(checked == told, "solve: %r, check: %r" % (told, checked))
    added = by_values(read(text), read_either(certificate), solution, told)
    return out.split()[0], len(read_solution(solution)[0]) if solution else 0, added


def by_values(instance, found, solution, told):
    """The leaves' values by labels, and the plan, give the same line; what is added where there are too many."""
    if leaves_of(found.tree) > FEW_LEAVES:
        return ", the leaves by the program alone"
    pricing = Pricing(instance, found.neighbours, found.version)
    values = [pricing.value(*leaf) for leaf in leaves(instance.count, found.tree)]
    if None in values:
        return ", the leaves by the program alone"
    bound = min(values + [instance.ceiling() + 1])
    demand(bound == found.bound, "a bound of %d, and that of the tree is %d" % (found.bound, bound))
    right = checking.check_plan(instance, bound, *read_solution(solution)) if solution else ("NO PLAN\n", "", 0)
    demand(bound == instance.ceiling() + 1 or solution, "NO PLAN with the bound %d" % bound)
    demand(right == told, "solve: %r, reference: %r" % (told, right))
    return ""


def judge_refuted(program, folder, random):
    """An instance of a class that plain arithmetic mostly refutes: `NO PLAN` within seconds where a reason proves it.
    Answers which reasons there were, or the line's first word."""
    name, count = random.choice(sorted(CLASSES)), random.choice([1, 2, 3, 8, 24, 25, 50, 100, 400])
    words = spoilt(random, class_words(random, name, count), count)
    text = laid_out(random, words)
    found = [reason for reason in reasons(read(text)) if reason.proves]
    options = random.choice([[], ["--sets", "3"], ["--close"] if count < 25 else []]) if found else ["--turns", "1"]
    begun = time.monotonic()
    out, errors, status, solution, certificate = solve(program, folder, text, options)
    told = "%s, %d customers, %s, %r" % (name, count, options, [reason.told for reason in found])
    if not found:
        return (out or errors).split()[0]
    demand((out, errors, status, solution) == ("NO PLAN\n", "", 0, b""), "%r: %s" % ((out, errors, status), told))
    demand(time.monotonic() - begun < MOST_SECONDS, "late: %s" % told)
    checked = run_check(program, folder, text, certificate, None)
    demand(checked == (out, errors, status), "check: %r: %s" % (checked, told))
    return ", ".join(sorted({"a customer" if reason.customer else "loads" for reason in found}))


def spoilt(random, words, count):
    """The words with large demands and a fleet that just doesn't carry them, or a customer who is out of reach or
    whose demand no vehicle holds; or both, or neither."""
    rows = len(words) - 7 * (count + 1)
    kinds = random.choice([["loads"], ["late"], ["heavy"], ["loads", "late"], []])
    if "loads" in kinds:
        most = random.choice([20, 1000, MOST_DEMAND // 2])
        demands = [random.randint(1, most) for _ in range(count)]
        capacity = max(demands + [min(MOST_LOAD, sum(demands) // random.randint(1, 9))])
        fleet = max(1, (sum(demands) - 1) // capacity)
        words[FLEET], words[FLEET + 1] = str(fleet), str(capacity)
        for at, demand_of in enumerate(demands, 1):
            words[rows + 7 * at + 3] = str(demand_of)
    one = rows + 7 * random.randint(1, count)
    if "late" in kinds:
        words[one + 5] = words[one + 4]
        words[rows + 5] = words[one + 4]
    if "heavy" in kinds:
        words[one + 3] = str(min(MOST_DEMAND, int(words[FLEET + 1]) + 1))
    return words


KINDS = {
    "fleets": Kind("a fleet near the edge, 1 to 9 customers: NO PLAN exactly where there is none", 40,
                   program_by(judge_fleets)),
    "refuted": Kind("what plain arithmetic refutes, up to 400 customers: NO PLAN within seconds, with its certificate",
                    40, program_by(judge_refuted)),
    "tight": Kind("25 customers, one vehicle fewer again and again: never OPEN", 4, program_by(judge_tight)),
}
