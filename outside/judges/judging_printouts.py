"""One run of `respell` on what other solvers print, by numbers or by names."""
import os

from cases.printout_cases import CHANGES, NAMED, NAMES, NUMBERED, Plan
from cases.random_texts import solution_of
from cases.tool_texts import joined, number_of, with_blanks
from judges.judging_layouts import demand_notes, demand_refusal, tool
from judges.judging_plans import drawn, text_of
from judges.kind import Kind, tools_by
from judges.running import demand, got, put
from reference.instances import plan_cost
from tools.names import table_of


def printed(folder, random):
    """An instance, a plan of it, the plan's lines in a drawn spelling, and the tool's options."""
    instance, _, path, routes = drawn(folder, random)
    kind, is_named = random.choice(NAMED + NUMBERED), random.randrange(2)
    words, options = [str(i) for i in range(instance.count + 1)], []
    if is_named and kind in NAMED:
        words = ["the depot"] + [random.choice(NAMES) % i for i in range(1, instance.count + 1)]
        table = os.path.join(folder, "names")
        put(table, table_of(words).encode())
        options = ["--names", table]
    plan = Plan(random, routes, words, random.choice([None, "5", "173.2"]), kind)
    return instance, path, plan, kind(plan), options


def judge_printout(folder, random):
    """A plan in another spelling: our text of its routes in the order there."""
    instance, path, plan, lines, options = printed(folder, random)
    source = os.path.join(folder, "elsewhere")
    put(source, joined(random, with_blanks(random, lines)))
    out, errors, status = tool("respell", path, source, *options)
    right = text_of(solution_of(plan.routes, plan_cost(instance, plan.routes)))
    demand((out, status) == (right, 0), "%s: %r, and %r is right: %r" % (plan.kind.__name__, out, right, errors))
    demand_notes("respell", errors)
    told = sum("the cost is " in line or "the cost there " in line for line in errors.splitlines())
    is_same = plan.cost is None or 10 * float(plan.cost) == plan_cost(instance, plan.routes)
    demand(told == (not is_same), "%s: a cost of %s: %r" % (plan.kind.__name__, plan.cost, errors))
    return "%s by %s" % (plan.kind.__name__, "names" if options else "numbers")


def judge_wrong_printout(folder, random):
    """The same with one thing wrong: refused with its line, and no certificate is written."""
    instance, path, plan, lines, options = printed(folder, random)
    change = random.choice(CHANGES)
    wrong = change(random, lines, plan)
    lines = with_blanks(random, lines)
    source, certificate = os.path.join(folder, "elsewhere"), os.path.join(folder, "prices")
    put(source, joined(random, lines))
    came = tool("respell", path, source, "--certificate", certificate, *options)
    demand_refusal("respell", source, number_of(lines, wrong), came)
    demand(got(certificate) is None, "respell wrote a certificate after a refusal")
    return "%s: %s" % (plan.kind.__name__, change.__name__)


KINDS = {
    "printouts": Kind("a plan as OR-Tools, VROOM, LKH and others print it, by respell", 40, tools_by(judge_printout)),
    "wrong_printouts": Kind("another solver's print with one thing wrong: refused with its line", 40,
                            tools_by(judge_wrong_printout)),
}
