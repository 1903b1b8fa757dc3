"""What turns of a search may come to."""
from judges.running import demand
from reference.instances import is_plan, plan_cost
from reference.moving import first_gain
from reference.optimum import least_cost

MOST_SOLVED = 7  # customers whose plans are all gone through


def told_turns(lines):
    """What the program told of a descent, of one by several threads and of turns: three costs, and the routes."""
    heads = ["descent", "parallel", "turns"]
    words = [line.split(" ", 1) for line in lines]
    demand([word[0] for word in words] == heads + ["route"] * (len(words) - 3), "turns: %r" % lines)
    costs = [int(word[1]) for word in words[:3]]
    return costs, [[int(stop) for stop in word[1].strip("[]").split(",")] for word in words[3:]]


def judge_turns_told(instance, near, number, lines):
    """Turns from the routes that a descent comes to: a plan at its cost that no single move makes cheaper, and no
    dearer one; these very routes where no turn was made. Answers what came of it."""
    (one, several, cost), routes = told_turns(lines)
    first = plan_cost(instance, near)
    demand(one == several == first, "descents to %d and %d, and %d is right" % (one, several, first))
    demand(is_plan(instance, routes) and plan_cost(instance, routes) == cost, "turns to %r at %d" % (routes, cost))
    demand(cost <= first and (number > 0 or routes == near), "turns to %d from %d" % (cost, first))
    demand(first_gain(instance, routes) is None, "a move makes %r cheaper" % routes)
    if instance.count > MOST_SOLVED:
        return "cheaper" if cost < first else "as after the descent"
    least = least_cost(instance)
    demand(cost >= least, "turns to %d, and the least cost is %d" % (cost, least))
    return "the least cost" if cost == least else "not the least cost"
