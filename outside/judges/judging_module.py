"""One run of the module for Python on few customers: its answers are those of all plans, and right as texts and lists;
it is cancelled, starts from plans in each form, and raises what the program says."""
import json
import os
import pickle
import time

from cases.random_texts import instance_words, laid_out, plan_of
from judges.kind import Kind, program_by
from judges.running import demand, put
from reference.building import build
from reference.instances import is_plan, plan_cost, read
from reference.optimum import least_cost
from reference.set_texts import read_either
from reference.texts import read_solution
from tools.respelling import text_of
import vrptw

MOST_CUSTOMERS = 6
# One thread of each kind, for the sake of the machine.
FEW = {"searchers": 1, "bounders": 1}
# How long a work may go on that is cancelled, in seconds: the machine may be busy.
SOON = 30


def judge_answer(instance, answer, cost):
    """An answer says nothing that isn't so, in its fields and in its texts; `cost` is the least one, or None."""
    if answer.kind == "NO PLAN":
        demand(cost is None and answer.routes is None and not answer.plan and answer.cost is None, "%r" % answer)
        return
    demand(answer.certificate and read_either(answer.certificate).bound == answer.bound_tenths, "%r" % answer)
    demand(cost is None or answer.bound_tenths <= cost, "%r, and the least cost is %s" % (answer, cost))
    demand(answer.is_best == (answer.cost_tenths == answer.bound_tenths) == (answer.kind == "BEST"), "%r" % answer)
    if answer.kind in ("OPEN", "BOUND"):
        demand(answer.routes is None and answer.plan == b"" and answer.gap is None, "%r" % answer)
        return
    demand(is_plan(instance, answer.routes) and plan_cost(instance, answer.routes) == answer.cost_tenths, "%r" % answer)
    demand(read_solution(answer.plan) == (answer.routes, answer.cost_tenths), "%r, and %r" % (answer, answer.plan))
    demand("%.1f" % answer.cost == "%d.%d" % divmod(answer.cost_tenths, 10), "%r" % answer)
    demand(answer.cost_tenths >= cost and 0 <= answer.gap <= 1, "%r, and the least cost is %s" % (answer, cost))


def forms(random, instance, routes, folder):
    """A plan in one of its forms."""
    text = text_of(routes, plan_cost(instance, routes)).encode()
    path = os.path.join(folder, "start.txt")
    put(path, text)
    return random.choice([text, path, routes, tuple(map(tuple, routes)), vrptw.schedule(instance_of(instance), routes),
                          vrptw.Answer("GAP", routes, None, None, text)])


def instance_of(instance):
    """An instance of the reference as one of the module."""
    rows = [row[:3] + tuple(moment // 10 for moment in row[3:]) for row in instance.rows]
    return vrptw.Instance.from_rows(rows, instance.fleet, instance.capacity, instance.name.decode())


def judge_cancelled(random, text, instance, cost, options):
    """A work that is cancelled by its callback, or before it begins: what it answers is right, and it ends soon."""
    began, told, met = time.monotonic(), [], []
    work = vrptw.Solving(text, on_progress=lambda came: (told.append(came), work.cancel()),
                         on_plan=lambda *plan: met.append(plan), **options)
    if random.randrange(2):
        work.cancel()
    answer = work.run()
    demand(time.monotonic() - began < SOON, "a cancelled work took %.1f s" % (time.monotonic() - began))
    judge_answer(instance, answer, cost)
    judge_progress(told, cost, options.get("seconds"))
    judge_met(instance, met, told, answer)
    return "cancelled"


def judge_met(instance, met, told, answer):
    """The plans that were met, each cheaper than the one before; the answer costs what the last of them does, and no more
    than progress told."""
    costs = [cost for _, cost in met]
    demand(all(before > after for before, after in zip(costs, costs[1:])), "met: %s" % costs)
    demand(all(plan_cost(instance, routes) == round(10 * cost) and is_plan(instance, routes) for routes, cost in met),
           "met: %r" % met)
    demand(not costs or answer.cost == costs[-1], "%r, and met %s" % (answer, costs))
    least = min((came.cost_tenths for came in told if came.cost_tenths is not None), default=None)
    demand(least is None or answer.has_plan and answer.cost_tenths <= least, "%r, and %s was told" % (answer, least))


def judge_progress(told, cost, seconds):
    """What was told on the way: with so many seconds the percent is that of the time, and only the cost falls."""
    demand(all(0 <= came.percent <= 100 and (came.cost is None or came.cost_tenths >= (cost or 0)) for came in told),
           "%r" % told)
    demand(seconds is None or all(came.percent == min(100, int(100 * came.seconds / seconds)) for came in told),
           "of %s seconds: %r" % (seconds, told))
    for before, came in zip(told, told[1:]):
        demand(before.percent <= came.percent and before.seconds <= came.seconds, "%r, and then %r" % (before, came))
        demand((before.bound_tenths or 0) <= (came.bound_tenths or 0), "%r, and then %r" % (before, came))
        demand(before.cost_tenths is None or came.cost_tenths <= before.cost_tenths, "%r, and then %r" % (before, came))
    demand([vrptw.Progress.from_dict(json.loads(json.dumps(came.to_dict()))) for came in told] == told, "%r" % told)


def judge_faults(program, text, routes):
    """What the program says is raised with its line and its status."""
    for call, status, words in (
            (lambda: vrptw.solve(b"x y", program=program), 3, "vrptw: instance: BadWord line 1"),
            (lambda: vrptw.solve(text, turns=0, program=program), 2, "turns: met 0, wanted a whole number of 1 to"),
            (lambda: vrptw.solve(text, start=b"x\n", program=program), 5, "vrptw: solution: BadLine line 1"),
            (lambda: vrptw.solve(text, tree=b"x\n", program=program), 5, "vrptw: certificate: BadLine line 1"),
            (lambda: vrptw.solve(text, seconds=9, tree=b"x\n", program=program), 5,
             "vrptw: certificate: BadLine line 1"),
            (lambda: vrptw.check(text, b"VRPTW-CERT 3\n", program=program), 5, "vrptw: certificate: BadLine line 1"),
            (lambda: vrptw.check(text, b"VRPTW-SETS 1\n", program=program), 5, "vrptw: certificate: Truncated"),
            (lambda: vrptw.check(text, plan=routes + routes[:1], program=program), 5, "vrptw: plan: "),
            (lambda: vrptw.solve(text, program=os.devnull), None, "Permission denied")):
        try:
            answer = call()
        except vrptw.Fault as fault:
            demand(fault.status == status and words in fault.line and words in str(fault),
                   "status %s, %r, and %r is right" % (fault.status, fault.line, words))
        else:
            demand(False, "%r, and %r is right" % (answer, words))
    return "faults"


def judge_gone_on(random, folder, text, instance, answer, cost, program):
    """A work from the tree of an answer, by a run or by rounds: its bound is no lower."""
    path = os.path.join(folder, "tree.txt")
    put(path, answer.certificate)
    how = random.choice([{"turns": random.randint(1, 5)}, {"seconds": 1}])
    more = vrptw.solve(text, tree=random.choice([answer, answer.certificate, path]), program=program, **how, **FEW)
    judge_answer(instance, more, cost)
    demand((more.kind == "NO PLAN") == (answer.kind == "NO PLAN"), "%r from %r" % (more, answer))
    if answer.kind != "NO PLAN":
        demand(more.bound_tenths >= answer.bound_tenths, "%r from %r" % (more, answer))


def judge_solved(random, folder, text, instance, cost, options):
    """A work that ends by itself, from a plan or without one, and the check of its texts."""
    routes, start = plan_of(random, instance), None
    if is_plan(instance, routes) and random.randrange(2):
        start = options["start"] = forms(random, instance, routes, folder)
    source = os.path.join(folder, "source.txt")
    put(source, text)
    told, met = [], []
    given = random.choice([text, source, vrptw.Instance.from_file(text)])
    answer = vrptw.solve(given, on_progress=told.append, on_plan=lambda *plan: met.append(plan), **options)
    judge_answer(instance, answer, cost)
    judge_progress(told, cost, options.get("seconds"))
    judge_met(instance, met, told, answer)
    demand(vrptw.Answer.from_dict(json.loads(json.dumps(answer.to_dict()))) == answer
           == pickle.loads(pickle.dumps(answer)) and answer.has_plan == (answer.routes is not None), "%r" % answer)
    demand(answer.kind != "BOUND" and (start is None or answer.cost_tenths <= plan_cost(instance, routes)),
           "%r from %r" % (answer, start))
    demand(not options.get("close") or answer.kind in ("BEST", "NO PLAN"), "closed: %r" % answer)
    again = vrptw.check(text, answer.certificate, answer if answer.plan else None, program=options["program"])
    demand(again == answer or (again.kind, answer.kind) == ("BOUND", "OPEN"), "%r, and the check says %r" % (
        answer, again))
    if random.randrange(2):
        judge_gone_on(random, folder, text, instance, answer, cost, options["program"])
    if answer.plan:
        alone = vrptw.check(text, plan=answer.routes, program=options["program"])
        demand((alone.routes, alone.cost_tenths, alone.bound_tenths) == (answer.routes, answer.cost_tenths, 0),
               "the plan alone: %r" % alone)
    return answer.kind


def judge_module(program, folder, random):
    """An instance, by the module."""
    text = laid_out(random, instance_words(random, random.randint(1, MOST_CUSTOMERS)))
    instance = read(text)
    made = instance_of(instance).text
    demand(read(made).rows == instance.rows and read(made).name == instance.name, "instance_text: %r" % made)
    how = random.choice([{"turns": random.randint(1, 5), **FEW}, {"seconds": random.choice([0.5, 2]), **FEW},
                         {"close": True}])
    options = {**how, "program": program, "seed": random.randrange(2 ** 32), "neighbours": random.choice([None, 0, 8])}
    cost = least_cost(instance)
    kind = random.randrange(6)
    if kind == 0:
        return judge_cancelled(random, text, instance, cost, options)
    routes, left = build(instance)
    if kind == 1 and not left:
        return judge_faults(program, text, routes)
    return judge_solved(random, folder, text, instance, cost, options)


KINDS = {
    "module": Kind("1 to 6 customers by the module for Python: answers, texts, cancelling and faults, by all plans", 20,
                   program_by(judge_module)),
}
