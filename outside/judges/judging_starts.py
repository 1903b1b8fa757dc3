"""Runs of `solve --start`: from a plan the answer is a plan that costs no more, and a text that is none is told as the
check tells it."""
import os

from cases.random_texts import instance_words, laid_out, plan_of, solution_of, spoilt
from judges.kind import Kind, program_by
from judges.running import Disagreement, demand, put, run_check, solve
from reference import checking
from reference.instances import plan_cost, read
from reference.set_texts import read_either
from reference.texts import TextFault, read_solution, shown
from tools.respelling import certificate


def start_of(random, instance):
    """The text of a plan to start from: mostly a plan at its cost, sometimes with something wrong."""
    routes = plan_of(random, instance)
    if random.randrange(3) == 0:
        routes = [[i] for i in range(1, instance.count + 1)]
        random.shuffle(routes)
    cost = plan_cost(instance, [[i for i in route if i <= instance.count] for route in routes])
    lines = solution_of(routes, max(0, cost + random.choice([0] * 10 + [1, -1])))
    if random.randrange(10) == 0:
        return spoilt(random, lines)
    return "".join(line + random.choice(["\n"] * 40 + ["\r\n"]) for line in lines).encode()


def options_of(random):
    """Options besides, and whether the tree is closed."""
    gap = random.choice([[], [], ["--gap", "0"], ["--gap", str(random.randint(0, 1000))], ["--gap", "1000"]])
    if random.randrange(3) == 0:
        return ["--close"] + gap
    sets = random.choice([[], ["--sets", str(random.choice([1, 5, 20, 200]))]])
    return ["--turns", str(random.randint(1, 20)), "--searchers", "1", "--bounders", "1"] + gap + sets


def judge_start(program, folder, random):
    """An instance, a start and options. Answers the line's first words."""
    text = laid_out(random, instance_words(random, random.randint(1, 8)))
    start, options = start_of(random, read(text)), options_of(random)
    path = os.path.join(folder, "start")
    put(path, start)
    try:
        return judge_run(program, folder, text, start, options + ["--start", path])
    except (Disagreement, TextFault) as found:
        raise Disagreement("%s\n  options: %s\n  start: %r\n  instance: %s\n " % (
            found, " ".join(options), start, " ".join(text.decode().split())))


def judge_run(program, folder, text, start, words):
    came = out, errors, status, solution, found = solve(program, folder, text, words)
    instance = read(text)
    # With prices of 0 the check takes any plan.
    right = checking.check(text, certificate(instance).encode(), start, lambda *_: 0)
    if right[2] == 5:
        demand(came == ("",) + right[1:] + (b"", b""), "start: %r, and the check says %r" % (came, right))
        return " ".join(word for word in right[1].split() if word.isalpha() or word.endswith(":"))
    demand(errors == "" and out.split()[:1] in (["BEST"], ["GAP"]), "from a plan: %r" % (came,))
    cost, most = read_solution(solution)[1], read_solution(start)[1]
    demand(cost <= most, "a cost of %s from a plan of %s" % (shown(cost), shown(most)))
    checked = run_check(program, folder, text, found, solution)
    demand(checked == (out, errors, status), "solve: %r, check: %r" % ((out, errors, status), checked))
    demand("--close" not in words or out.startswith("BEST"), "--close: %r" % out)
    bound = read_either(found).bound
    demand((out.split()[0] == "BEST") == (cost == bound), "%r with the bound %s" % (out, shown(bound)))
    return out.split()[0]


KINDS = {
    "starts": Kind("solve --start, 1 to 8 customers: a plan that costs no more, or the start's fault", 40,
                   program_by(judge_start)),
}
