"""Runs of `solve` with drawn options. Nothing is compared that a schedule of the threads may change."""
import os
import re

from cases.random_texts import instance_words, laid_out
from judges.kind import Kind
from judges.running import Disagreement, demand, run_check, solve
from reference import bounding, checking
from reference.building import build
from reference.instances import plan_cost, read
from reference.moving import descend, first_gain
from reference.optimum import least_cost
from reference.set_texts import read_either
from reference.texts import TextFault, read_solution

# How many threads of a kind: mostly few, for the sake of the machine.
WORKERS = [1] * 12 + [2] * 8 + [3, 4, 5, 6, 7, 8]
# With more labels than these the first pricing of few customers is never refused.
FEW_LABELS = 100
# By default; an option that isn't drawn stands here.
DEFAULTS = {"searchers": 2, "bounders": 2, "turns": 200, "seed": 1, "neighbours": 8, "labels": 1000000,
            "gap": 0, "sets": 0, "rows": 0}
# How many lists of stops are gone through for one leaf.
FEW_ROUTES = 10_000
# A line of `--progress`, or what `--live` writes on one line.
TOLD = re.compile(r"vrptw: (\d+) % of the turns, (?:no plan|cost (\d+\.\d)), bound (\d+\.\d)(?:, gap (\d+\.\d) %)?"
                  r", leaves (\d+), turns (\d+)")
BLANKS = 12 * " "


def drawn_options(random, most_turns):
    """Values of the options; some but the turns are left to their defaults."""
    drawn = {"searchers": random.choice(WORKERS), "bounders": random.choice(WORKERS),
             "turns": random.randint(1, most_turns),
             "seed": random.choice([0, 2 ** 32 - 1, random.randrange(2 ** 32), random.randrange(2 ** 32)]),
             "neighbours": random.randint(0, 15),
             "labels": random.choice([random.randint(1, 12), random.randint(10, 60), 1000, 10 ** 5, 10 ** 6, 10 ** 8]),
             "gap": random.choice([0] * 8 + [random.randint(0, 1000), 1000]),
             "sets": random.choice([0, 0, 0, random.randint(1, 4), random.randint(1, 40), 200, 1000]),
             "rows": random.choice([0, 0, 0, random.randint(1, 4), random.randint(1, 40), 300, 1000])}
    return {name: value for name, value in drawn.items() if name == "turns" or random.randrange(10)}


def least(instance, region, prices, neighbours, priced=()):
    """The least reduced cost, by all relaxed routes where they are few, else by labels."""
    stops = instance.capacity // min(instance.demand(i) for i in range(1, instance.count + 1))
    if neighbours >= instance.count - 1:
        stops = min(stops, instance.count)
    by = bounding.least_by_routes if instance.count ** stops <= FEW_ROUTES else bounding.least_by_labels
    return by(instance, region, prices, neighbours, priced)


def judge_solve(program, folder, random, count, most_turns, is_small, variables=None):
    """An instance and options, with further variables for the run. Answers the line's first word."""
    text = laid_out(random, instance_words(random, count))
    drawn = drawn_options(random, most_turns)
    options = [word for name, value in drawn.items() for word in ("--" + name, str(value))]
    options += random.choice([[], [], ["--progress"], ["--live"], ["--live", "--progress"]])
    with open(os.path.join(folder, "options"), "w") as file:
        file.write(" ".join(options) + "\n")
    try:
        return judge_run(program, folder, text, options, {**DEFAULTS, **drawn}, is_small, variables)
    except (Disagreement, TextFault) as found:
        raise Disagreement("%s\n  options: %s\n  instance: %s\n " % (
            found, " ".join(options), " ".join(text.decode().split())))


def judge_held(program, folder, random, library):
    """Threads that are held at drawn allocations, mostly few and long holds or many short ones."""
    one_in = random.choice([2, 10, 100, 1000])
    variables = {"LD_PRELOAD": library, "HELD_SEED": random.randrange(2 ** 31), "HELD_ONE_IN": one_in,
                 "HELD_AT_MOST": random.choice([20, 200, 20 * one_in])}
    texts = {name: str(value) for name, value in variables.items()}
    return judge_solve(program, folder, random, random.randint(3, 9), 60, False, texts)


def judge_run(program, folder, text, options, settings, is_small, variables=None):
    out, errors, status, solution, certificate = solve(program, folder, text, options, variables)
    said = (out, errors, status)
    if status == 7:
        demand(said == ("", "vrptw: limit: LabelLimit\n", 7), "solve: %r" % (said,))
        demand(settings["labels"] <= FEW_LABELS, "LabelLimit with %d labels" % settings["labels"])
        demand((solution, certificate) == (b"", b""), "files after LabelLimit")
        return "LabelLimit"
    if "--live" in options:
        judge_progress(lines_of_live(errors), out, settings)
    elif "--progress" in options:
        judge_progress(errors.splitlines(), out, settings)
    if "--live" in options or "--progress" in options:
        errors = ""
    demand(errors == "" and out.split()[:1] in (["BEST"], ["GAP"], ["NO"], ["OPEN"]), "solve: %r" % (said,))
    demand((solution == b"") == (out.split()[0] in ("NO", "OPEN")), "a solution's text beside %r" % out)
    told = (out.replace("OPEN", "BOUND"), errors, status)
    checked = run_check(program, folder, text, certificate, solution or None)
    demand(checked == told, "solve: %r, check: %r" % (said, checked))
    judge_plan(read(text), solution)
    if is_small:
        judge_optimum(read(text), solution, read_either(certificate).bound, out)
    judge_texts(text, certificate, solution or None, told, settings)
    return out.split()[0]


def tenths(number):
    """The tenths that a number of units is."""
    return int(number.replace(".", ""))


def lines_of_live(errors):
    """What was written on one line: behind each carriage return a line with blanks, and a line feed at the end."""
    if errors == "":
        return []
    first, *lines = errors.removesuffix("\n").split("\r")
    demand(errors.endswith("\n") and first == "" and all(line.endswith(BLANKS) for line in lines), "live: %r" % errors)
    return [line.removesuffix(BLANKS) for line in lines]


def judge_progress(errors, out, settings):
    """Each hundredth of the turns is told once at most, in order; no cost is below the last one, no bound above the
    last."""
    lines = [TOLD.fullmatch(line) for line in errors]
    demand(all(lines), "progress: %r" % errors)
    parts = [int(line[1]) for line in lines]
    turns = settings["turns"] * (settings["searchers"] + settings["bounders"])
    demand(parts == sorted(set(parts)) and len(parts) <= turns, "progress: %r" % errors)
    demand(set(parts) <= set(range(1, 101)), "progress: %r" % errors)
    judge_order(lines, errors)
    for line in lines:
        demand((line[2] is None) == (line[4] is None) and int(line[5]) >= 1, "progress: %r" % errors)
        demand(int(line[6]) * 100 // turns == int(line[1]), "turns: %r" % line[0])
        if line[2] is not None:
            cost, bound = tenths(line[2]), tenths(line[3])
            gap = (2000 * (cost - bound) + cost) // (2 * cost)
            demand(bound < cost and tenths(line[4]) == gap, "gap: %r" % line[0])
    last = [tenths(number) for number in out.split() if "." in number]
    if out.startswith(("BEST", "GAP")):
        demand(all(line[2] is None or tenths(line[2]) >= last[0] for line in lines), "%r, and %r" % (errors, out))
    if last:
        demand(all(tenths(line[3]) <= last[-1] for line in lines), "%r, and %r" % (errors, out))


def judge_order(lines, errors):
    """No line goes back: costs don't rise, bounds, leaves and turns don't fall, and a plan that was told is known."""
    for before, line in zip(lines, lines[1:]):
        demand(all(tenths(a) <= tenths(b) if "." in a else int(a) <= int(b)
                   for a, b in zip(before.group(3, 5, 6), line.group(3, 5, 6))), "order: %r" % errors)
        demand(before[2] is None or line[2] is not None and tenths(line[2]) <= tenths(before[2]), "order: %r" % errors)


def is_overloaded(instance):
    """Whether the vehicles together don't carry what the customers demand: a set of all of them shows it."""
    return sum(row[2] for row in instance.rows) > instance.fleet * instance.capacity


def judge_texts(text, certificate, solution, told, settings):
    """Both texts by the reference's checker, and what stands in the certificate's head."""
    found = read_either(certificate)
    sets = max(settings["sets"], 1 if is_overloaded(read(text)) else 0)
    begins = b"VRPTW-ROWS 1\n" if settings["rows"] else b"VRPTW-SETS 1\n" if sets else b"VRPTW-CERT 2\n"
    demand(certificate.startswith(begins) and found.version == 2, "the certificate's version")
    demand(len(found.sets) <= sets, "the certificate's sets")
    demand(len(found.rows) <= settings["rows"], "the certificate's rows")
    demand(found.neighbours == settings["neighbours"], "the certificate's neighbours")
    checked = checking.check(text, certificate, solution, least)
    demand(checked == told, "solve: %r, reference: %r" % (told, checked))


def judge_plan(instance, solution):
    """No move makes the plan cheaper, and it costs no more than what insertion and descent come to."""
    built, left = build(instance)
    if solution == b"":
        demand(left, "no plan, though insertion finds one")
        return
    routes, cost = read_solution(solution)
    demand(first_gain(instance, routes) is None, "a move makes the plan cheaper")
    demand(left or cost <= plan_cost(instance, descend(instance, built)), "a plan above the first descent's")


def judge_optimum(instance, solution, bound, out):
    """The least cost over all plans lies between bound and cost."""
    optimum = least_cost(instance)
    if solution != b"":
        cost = read_solution(solution)[1]
        demand(optimum is not None and bound <= optimum <= cost, "optimum %s, and %r" % (optimum, out))
        demand(not out.startswith("BEST") or bound == optimum == cost, "optimum %s, and %r" % (optimum, out))
    elif out == "NO PLAN\n":
        demand(optimum is None, "NO PLAN, and one of cost %s" % optimum)
    else:
        demand(optimum is None or bound <= optimum, "optimum %s, and %r" % (optimum, out))


KINDS = {
    "solve": Kind("1 to 8 customers, drawn options: bound, least cost of all plans and cost in order", 24,
                  lambda programs, folder, random, seed:
                      judge_solve(programs.program, folder, random, random.randint(1, 8), 30, True)),
    "medium": Kind("9 to 25 customers, drawn options: bound and cost in order", 4,
                   lambda programs, folder, random, seed:
                       judge_solve(programs.program, folder, random, random.randint(9, 25), 3, False)),
    "held": Kind("3 to 9 customers, threads held at drawn allocations: bound and cost in order", 12,
                 lambda programs, folder, random, seed:
                     judge_held(programs.program, folder, random, programs.library), refuses=True),
}
