"""Runs of `solve --plans` that end by themselves or are killed: what stands there are whole plans, each cheaper than the
one before, and the last costs no more than what was told."""
import os
import re
import signal

from cases.classes import CLASSES, class_words
from cases.random_texts import instance_words, laid_out, plan_of
from judges.judging_breaks import broken_off
from judges.kind import Kind, program_by
from judges.running import demand, got, put, run_check, solve
from judges.solving import is_overloaded
from reference.instances import plan_cost, read
from reference.texts import read_solution, tenths
from tools.respelling import certificate, text_of
from vrptw.met import plans_in

# The costs that lines of progress tell.
TOLD = re.compile(r"% of the turns, cost ([0-9]+\.[0-9]),")
# How many texts of a run the program checks, at most.
CHECKED = 3


def texts_in(held):
    """The texts that stand whole: what is behind the last line of a cost isn't."""
    found, text = [], b""
    for line in held.splitlines(True):
        text += line
        if line.startswith(b"Cost ") and line.endswith(b"\n"):
            found.append(text)
            text = b""
    return found


def judge_met(program, folder, random, text, held, told):
    """What a file of plans holds behind a run that told this; answers the costs, in their order."""
    texts = texts_in(held)
    plans = [read_solution(one) for one in texts]
    instance, costs = read(text), [cost for _, cost in plans]
    demand(all(before > after for before, after in zip(costs, costs[1:])), "costs %s" % costs)
    demand(all(plan_cost(instance, routes) == cost for routes, cost in plans), "a cost of %s isn't right" % costs)
    chosen = texts[-1:] + random.sample(texts[:-1], min(len(texts[:-1]), CHECKED - 1))
    for one in chosen:
        line, errors, _ = run_check(program, folder, text, certificate(instance).encode(), one)
        demand(line.split()[:1] in (["GAP"], ["BEST"]), "%r of %r" % (errors, one))
    least = min(map(tenths, map(str.encode, TOLD.findall(told))), default=None)
    demand(least is None or costs and costs[-1] <= least, "%s was told, and %s stand" % (least, costs))
    cut = random.randint(0, len(held))
    demand(list(plans_in(held[:cut])) == list(zip(costs, texts_in(held[:cut]))), "cut at %d: %r" % (cut, held))
    return costs


def judge_killed(program, folder, random):
    """A run on some customers that is killed at some moment."""
    path = os.path.join(folder, "instance")
    text = laid_out(random, class_words(random, random.choice(list(CLASSES)), random.randint(10, 60)))
    put(path, text)
    words = [program, "solve", path, *(os.path.join(folder, name) for name in ("solution", "certificate")), "--plans",
             os.path.join(folder, "plans"), "--progress", "--turns", "1000", "--seed", str(random.randrange(1000)),
             "--searchers", str(random.randint(1, 3)), "--bounders", "1"]
    status, out, errors = broken_off(words, signal.SIGKILL, random.uniform(0, 1) ** 2)
    costs = judge_met(program, folder, random, text, got(os.path.join(folder, "plans")) or b"", errors)
    return "ended" if status != -signal.SIGKILL else "killed with plans" if costs else "killed without one"


def judge_whole(program, folder, random):
    """A run on a few customers that ends, perhaps from a plan, closing, or with a file that takes nothing."""
    text = laid_out(random, instance_words(random, random.randint(1, 8)))
    instance = read(text)
    routes = [[i for i in route if i <= instance.count] for route in plan_of(random, instance)]
    most = plan_cost(instance, routes)
    path, start = (os.path.join(folder, name) for name in ("plans", "start"))
    put(start, text_of(routes, most).encode())
    more = random.choice([[], [], ["--start", start], ["--close"]])
    options = ["--turns", str(random.randint(1, 30)), "--searchers", str(random.randint(1, 4))] + more
    before = solve(program, folder, text, options)
    target = random.choice([path, path, "/dev/full"])
    came = solve(program, folder, text, options + ["--plans", target, "--progress"])
    # Where a set of all customers shows that there is no plan `--close` is passed over, so that progress is told.
    same = came if not is_overloaded(instance) else (came[0], "", *came[2:])
    demand("--close" not in more or same == before, "%r, and with a file of plans %r" % (before, came))
    costs = judge_met(program, folder, random, text, got(path) or b"", came[1] if target == path else "")
    if costs:
        demand("--close" not in more and read_solution(came[3])[1] <= costs[-1], "a plan of %s: %r" % (costs, came))
        demand(more[:1] != ["--start"] or costs[0] <= most, "%s from a start of %s" % (costs, most))
    elif came[3] and "--close" not in more:
        demand(target != path, "no plan stands there: %r" % (came,))
    return "%s, %s" % (more[0] if more else "plain", "%d plans" % min(len(costs), 3))


def judge_run(program, folder, random):
    """One run of either."""
    return random.choice([judge_killed, judge_killed, judge_whole])(program, folder, random)


KINDS = {
    "met": Kind("solve --plans, killed or ended: whole plans at falling costs, the last as cheap as was told", 12,
                program_by(judge_run)),
}
