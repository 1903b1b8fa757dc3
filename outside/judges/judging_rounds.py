"""One run of rounds, by the module for Python and by the step of a batch: a program that comes to drawn costs and
bounds takes the place of ours, and the cheapest plan and the highest bound have to stay."""
import os
import shutil
import signal
import subprocess
import threading
import time

from judges.kind import Kind, tools_by
from judges.running import demand, got, put
from reference.set_texts import read_either
from reference.texts import read_solution, shown
from tools.places import OUTSIDE
import vrptw

# How long a work may take that is ended, in seconds: the machine may be busy.
SOON = 60
INSTANCE = (b"T\nVEHICLE\nNUMBER CAPACITY\n2 2\nCUSTOMER\n"
            b"CUST NO. XCOORD. YCOORD. DEMAND READY TIME DUE DATE SERVICE TIME\n"
            b"0 0 0 0 0 1000 0\n1 3 4 1 0 1000 0\n2 6 8 1 0 1000 0\n")
# The same with vehicles that hold many customers in a day: there the larger count of neighbours comes first.
LONG_DAYS = INSTANCE.replace(b"\n2 2\n", b"\n2 20\n")
# Each call of solve takes the next line: cost or -, bound, status. After the last one it waits to be ended.
PROGRAM = """#!/bin/sh
here=%s
if [ "$1" = check ]; then
  cost=$(sed -n 's/^Cost //p' "$5" 2>/dev/null)
  echo "GAP $cost $(sed -n 's/^BOUND //p' "$3")"
  exit 1
fi
[ "$2" != - ] || exit 6
k=$(echo "$*" | sed -n 's/.*--neighbours \\([0-9]*\\).*/\\1/p')
tree=$(echo "$*" | sed -n 's/.*--tree \\([^ ]*\\).*/\\1/p')
[ -z "$tree" ] || k=$(sed -n 's/^NEIGHBOURS //p' "$tree")
echo "$* of $k" >>"$here/words"
set -- "$3" "$4" $(sed -n "$(wc -l <"$here/words")p" "$here/rows")
[ $# = 5 ] || exec sleep 600
if [ "$5" -gt 1 ]; then echo "vrptw: limit: LabelLimit" >&2; exit "$5"; fi
: >"$1"
[ "$3" = - ] || printf 'Route #1: 1 2\nCost %%s\n' "$3" >"$1"
printf 'VRPTW-CERT 2\nINSTANCE T\nCUSTOMERS 2\nNEIGHBOURS %%s\nBOUND %%s\nTREE\nS 1 2\nP 0 0\nP 0 0\nEND\n' "$k" "$4" >"$2"
if [ "$3" = - ]; then echo "OPEN $4"; elif [ "$3" = "$4" ]; then echo "BEST $3"; else echo "GAP $3 $4"; fi
[ "$3" = "$4" ] || exit 1
"""
OPTIONS = {"searchers": 3, "labels": 77}


def drawn_rows(random):
    """Lines of costs, bounds and statuses, in tenths: no bound is above the least cost."""
    least = random.randint(0, 400)
    return [(None if random.randrange(5) == 0 else least + random.choice([0, 1, 5, 90, random.randint(0, 900)]),
             random.choice([least, max(0, least - 1), random.randint(0, least)])) for _ in range(random.randint(0, 9))]


def right_of(rows):
    """Cost and bound that stay, and how many rows are taken."""
    cost = bound = None
    for number, (own, its) in enumerate(rows, 1):
        cost = own if cost is None or own is not None and own < cost else cost
        bound = its if bound is None or its > bound else bound
        if cost is not None and cost == bound:
            return cost, bound, number
    return cost, bound, len(rows)


def fitted_out(folder, rows):
    program = os.path.join(folder, "program")
    put(program, (PROGRAM % folder).encode())
    os.chmod(program, 0o755)
    put(os.path.join(folder, "words"), b"")
    lines = ["%s %s %d\n" % ("-" if cost is None else shown(cost), shown(bound), cost != bound) for cost, bound in rows]
    put(os.path.join(folder, "rows"), "".join(lines).encode())
    return program


def judge_words(folder, rows, options, first=8, other=12):
    """Each call has the options, and begins with a plan once there is one, and with the tree of the last round with so
    many neighbours; turns grow, neighbours change."""
    calls = got(os.path.join(folder, "words")).decode().splitlines()
    has_plan = False
    for number, call in enumerate(calls):
        words = call.split()
        demand(all(call.count("--%s %s" % pair) == 1 for pair in options.items()), "%r" % call)
        demand(("--start" in words) == has_plan, "a start in round %d: %r" % (number, call))
        if number < len(rows):
            has_plan = has_plan or rows[number][0] is not None
    counts = [int(call.split(" of ")[1]) for call in calls[:5]]
    turns = [int(call.split("--turns ")[1].split()[0]) for call in calls]
    rounds = [(int(call.split(" of ")[1]), made) for call, made in zip(calls, turns)]
    for number, call in enumerate(calls):
        is_on = any(of == rounds[number][0] for of, _ in rounds[:number])
        demand((" --tree " in call, " --neighbours " in call) == (is_on, not is_on), "a tree in round %d: %r" % (
            number, calls))
    demand(counts == [first, first, other, first, other][:len(counts)], "neighbours: %r" % counts)
    demand(turns[:9] == [1, 4, 4, 16, 16, 64, 64, 256, 256][:len(turns)], "turns: %r" % turns)
    seeds = [int(call.split("--seed ")[1].split()[0]) for call in calls]
    demand(seeds == list(range(seeds[0], seeds[0] + len(seeds))), "seeds: %r" % seeds)


def ended_after(folder, count, end):
    """Ends a work once so many calls were made, from another thread."""
    def wait():
        until = time.monotonic() + SOON
        while len(got(os.path.join(folder, "words")).splitlines()) < count and time.monotonic() < until:
            time.sleep(0.01)
        end()
    thread = threading.Thread(target=wait)
    thread.start()
    return thread


def judge_by_module(folder, rows, right, has_long_days):
    """By `Solving`, which is cancelled once the rows are taken."""
    cost, bound, taken = right
    work = vrptw.Solving(LONG_DAYS if has_long_days else INSTANCE, seconds=SOON + 20, seed=5, program=fitted_out(folder, rows), **OPTIONS)
    is_closed = cost is not None and cost == bound
    thread = ended_after(folder, taken if is_closed else len(rows) + 1, (lambda: None) if is_closed else work.cancel)
    began, answer = time.monotonic(), work.run()
    thread.join()
    demand(time.monotonic() - began < SOON, "it took %.0f s" % (time.monotonic() - began))
    kind = "BEST" if is_closed else "OPEN" if cost is None else "GAP"
    demand((answer.kind, answer.cost_tenths, answer.bound_tenths) == (kind, cost, bound or 0), "%r, and %r is right" % (
        answer, right))
    demand(cost is None or read_solution(answer.plan) == ([[1, 2]], cost), "%r" % answer.plan)
    demand(bound is None or read_either(answer.certificate).bound == bound, "%r" % answer.certificate)
    judge_words(folder, rows, OPTIONS, *([12, 8] if has_long_days else [8, 12]))


def judge_by_step(folder, rows, right):
    """By the step of a batch, which SIGTERM ends once the rows are taken."""
    cost, bound, taken = right
    own = os.path.join(folder, "i@few.s5")
    os.mkdir(own)
    put(os.path.join(own, "instance.txt"), INSTANCE)
    fitted_out(folder, rows)
    put(os.path.join(folder, "options"), b"many: --turns 3\nfew.s5: --seconds %d --searchers 3 --labels=77 --seed 5\n"
        % (10 * SOON))
    shutil.copy(os.path.join(OUTSIDE, "tools", "step"), os.path.join(folder, "step"))
    child = subprocess.Popen([os.path.join(folder, "step"), "i@few.s5"])
    is_closed = cost is not None and cost == bound
    thread = ended_after(folder, taken if is_closed else len(rows) + 1,
                         lambda: None if is_closed else child.send_signal(signal.SIGTERM))
    try:
        child.wait(SOON)
    except subprocess.TimeoutExpired:
        child.kill()
        demand(False, "the step didn't end")
    thread.join()
    done, plan, proof = (got(os.path.join(own, name)) for name in ("done.txt", "plan.txt", "certificate.txt"))
    if not rows:
        demand(done is None, "done without a round: %r" % done)
        return
    demand(done and int(done.split()[0]) == (0 if is_closed else 1), "done: %r, and %r is right" % (done, right))
    demand((read_solution(plan)[1] if plan else None, read_either(proof).bound) == (cost, bound), "%r, and %r" % (
        (plan, proof), right))
    line = ("BEST %s" if is_closed else "OPEN %s" if cost is None else "GAP %s %s") % (
        (shown(bound),) if cost is None or is_closed else (shown(cost), shown(bound)))
    demand(got(os.path.join(own, "line.txt")).decode() == line + "\n", "%r, and %r is right" % (
        got(os.path.join(own, "line.txt")), line))
    for call in got(os.path.join(folder, "words")).decode().splitlines():
        demand(" --labels=77" in call, "%r" % call)
    judge_words(folder, rows, {"searchers": 3})


def judge_rounds(folder, random):
    """Rows by both."""
    rows, has_long_days = drawn_rows(random), random.randrange(2) == 0
    right = right_of(rows)
    by_module, by_step = os.path.join(folder, "module"), os.path.join(folder, "step")
    os.mkdir(by_module)
    judge_by_module(by_module, rows, right, has_long_days)
    os.mkdir(by_step)
    judge_by_step(by_step, rows, right)
    return "closed" if right[0] is not None and right[0] == right[1] else "ended"


KINDS = {
    "rounds": Kind("drawn costs and bounds by rounds of the module and of a batch's step: the best stay, at an end too",
                   12, tools_by(judge_rounds)),
}
