"""One run of the times that the module for Python tells of routes, against a walk written anew; and rows of its calls
by hand."""
import json
import os
import pickle
import sys
from collections import Counter

from cases.module_cases import ALSO, CALLS, PLAN, PROGRAMS, TEXT
from cases.random_texts import instance_words, laid_out, plan_of
from judges.judging_departures import latest
from judges.judging_faults import fitted_out
from judges.judging_layouts import tool
from judges.kind import Kind, number_by, program_by
from judges.running import demand, put, run, shown
from reference import checking
from reference.instances import is_plan, plan_cost, read, route_cost
from tools.places import OUTSIDE
from tools.respelling import certificate, text_of
import vrptw

# The program's words of what is wrong with routes of known customers.
DEFECTS = ("Twice", "Missing", "OverCapacity", "Late", "FleetExceeded")


class Index:
    """A whole number as arrays have them."""

    def __init__(self, value):
        self.value = value

    def __index__(self):
        return self.value


def moments(instance, route, leaves):
    """The stops of a route by their names, in tenths, and the return, whether in time or not."""
    clock, before, load, found = leaves, 0, 0, []
    for i in [*route, 0]:
        came, load = clock + instance.arc[before][i], load + instance.demand(i)
        begin = came if came > instance.ready(i) else instance.ready(i)
        over = begin - instance.due(i)
        clock, before = begin + instance.service(i), i
        found.append({"stop": i, "arrival": came, "wait": begin - came, "begin": begin, "end": clock, "load": load,
                      "slack": -over, "late": over if over > 0 else 0})
    return found


def leaves_at(instance, route, told):
    """When a vehicle leaves: as late as halving says; where that comes too late anyway, as it is told, but nothing that
    is late comes later than by leaving when the depot opens."""
    opens, back = instance.ready(0), moments(instance, route, instance.ready(0))
    if not any(stop["late"] for stop in back):
        return latest(instance, route)
    moved = moments(instance, route, told)
    demand(told >= opens and moved[-1]["begin"] == back[-1]["begin"] and [
        (stop["stop"], stop["late"]) for stop in moved] == [(stop["stop"], stop["late"]) for stop in back],
           "%r leaves at %d, and comes later than by leaving at %d" % (route, told, opens))
    return told


def right_route(instance, place, route, told, is_early):
    """A route as the module has to tell it, in tenths where that are times."""
    leaves = instance.ready(0) if is_early else leaves_at(instance, route, told)
    stops, served = moments(instance, route, leaves), sum(instance.service(i) for i in route)
    back, waited = stops[-1]["end"], sum(stop["wait"] for stop in stops)
    return {"route": place, "distance": route_cost(instance, route), "duration": back - leaves, "waiting": waited,
            "driving": back - leaves - waited - served, "service": served, "leaves": leaves, "back": back,
            "load": sum(instance.demand(i) for i in route), "stops": stops}


def in_tenths(told):
    """The numbers of an object of JSON, of which all floats are units that print with a decimal."""
    if isinstance(told, float):
        demand(told == float("%.1f" % told), "%r has more than a decimal" % told)
        return round(10 * told)
    if isinstance(told, list):
        return [in_tenths(one) for one in told]
    return {name: in_tenths(one) for name, one in told.items()} if isinstance(told, dict) else told


def right_reasons(instance, routes):
    """All that is wrong with routes: its kind, the route and the customer."""
    served, found = Counter(i for route in routes for i in route), set()
    for place, route in enumerate(routes, 1):
        found |= {("Late", place, stop["stop"]) for stop in moments(instance, route, instance.ready(0)) if stop["late"]}
        if sum(instance.demand(i) for i in route) > instance.capacity:
            found.add(("OverCapacity", place, None))
    found |= {("Twice" if served[i] else "Missing", None, i) for i in range(1, instance.count + 1) if served[i] != 1}
    return found | ({("FleetExceeded", None, None)} if len(routes) > instance.fleet else set())


def forms(random, instance, routes):
    """Routes in one of their forms."""
    kind = random.randrange(5)
    if kind == 0:
        return [[0, *route, 0] for route in routes] + [[0], []]
    if kind == 1:
        return tuple(map(Index, route) for route in routes)
    if kind == 2:
        return text_of(routes, plan_cost(instance, routes)).encode()
    if kind == 3:
        return vrptw.Answer("GAP", routes, None, None, text_of(routes, plan_cost(instance, routes)).encode())
    return routes


def judge_timetable(folder, text, instance, routes, told, depart):
    """The object of timetable has the same numbers."""
    paths = [os.path.join(folder, name) for name in ("instance", "plan")]
    put(paths[0], text)
    put(paths[1], text_of(routes, plan_cost(instance, routes)).encode())
    out, _, status = tool("timetable", *paths, "--json", "--depart", depart)
    said = json.loads(out)
    right = [{name: route[name] for name in mine} for route, mine in zip(said["routes"], told["routes"])]
    for route, mine in zip(right, told["routes"]):
        for stop in mine["stops"]:
            stop["is_late"] = stop.pop("late") > 0
        route["stops"] = [{name: stop[name] for name in one} for stop, one in zip(route["stops"], mine["stops"])]
    demand(status == 0 and told["routes"] == right and len(said["routes"]) == len(right),
           "%r, and timetable says %r" % (told["routes"], right))
    reasons = [{name: reason[name] for name in ("kind", "route", "customer")} for reason in told["reasons"]]
    demand((said["plan"]["is_plan"], said["plan"]["reasons"]) == (told["is_plan"], reasons), "%r, and timetable says %r"
           % (told["reasons"], said["plan"]))


def judge_unknown(instance, text, routes):
    """A number that is no customer's is told with its route."""
    place, wrong = next((place, i) for place, route in enumerate(routes, 1) for i in route if i > instance.count)
    try:
        told = vrptw.schedule(text, routes)
    except vrptw.BadPlan as fault:
        demand(fault.line == "plan: route %d: met customer %d, wanted 1 to %d" % (place, wrong, instance.count),
               "%r" % fault.line)
        return "unknown"
    demand(False, "%r has customer %d" % (told, wrong))


def judge_schedule(program, folder, random):
    """Routes that are a plan or none, by all numbers and reasons; check says whether they are one."""
    text = laid_out(random, instance_words(random, random.randint(1, 8)))
    instance = read(text)
    routes = plan_of(random, instance)
    defect, depart = checking.plan_defect(instance, routes), random.choice(["late", "late", "early"])
    if defect == "UnknownCustomer":
        return judge_unknown(instance, text, routes)
    given = random.choice([text, vrptw.Instance.from_file(text)])
    plan = vrptw.schedule(given, forms(random, instance, routes), depart=depart)
    told = json.loads(json.dumps(plan.to_dict()))
    demand(vrptw.Plan.from_dict(told) == plan == pickle.loads(pickle.dumps(plan)), "%r, and it is %r" % (told, plan))
    numbers = in_tenths(told["routes"])
    right = [right_route(instance, place, route, own["leaves"], depart == "early")
             for place, (route, own) in enumerate(zip(routes, numbers), 1)]
    demand(numbers == right, "%r: %r, and %r is right" % (depart, told["routes"], right))
    reasons = {(reason.kind, reason.route, reason.customer) for reason in plan.reasons}
    demand(reasons == right_reasons(instance, routes) and len(reasons) == len(plan.reasons), "%r" % plan.reasons)
    demand(plan.is_plan == is_plan(instance, routes) == told["is_plan"], "%r, and %r" % (plan, defect))
    demand(plan.cost_tenths == plan_cost(instance, routes) == round(10 * plan.cost), "%r" % plan)
    demand(defect is None or defect in {kind for kind, _, _ in reasons}, "%r, and %s is wrong" % (reasons, defect))
    came = vrptw.run_check(program, text, certificate(instance).encode(), vrptw.plan_text(text, plan))
    demand((came.status == 5) == bool(plan.reasons) and (plan.is_plan or came.fault == "vrptw: plan: " + defect),
           "%r, and check says %r" % (plan, came))
    if defect not in ("Twice", "Missing"):
        judge_timetable(folder, text, instance, routes, told, depart)
    return defect or "plan"


def judge_raised(names, call, kind, status, part):
    """What a call raises: its kind, its status, its line, and the same behind a pickle."""
    try:
        answer = eval(call, names)
    except vrptw.Fault as fault:
        demand((type(fault).__name__, str(fault.status)) == (kind, status) and part in fault.line == str(fault),
               "%s: %s, status %s, %r" % (call, type(fault).__name__, fault.status, fault.line))
        demand(isinstance(fault, ALSO.get(kind, Exception)), "%s: %s" % (call, type(fault).__mro__))
        again = pickle.loads(pickle.dumps(fault))
        demand((type(again), again.line, again.status) == (type(fault), fault.line, fault.status), "%s: %r" % (
            call, again))
        return
    demand(False, "%s: %r, and %s is right" % (call, answer, kind))


def judge_printed(folder, program, script, right):
    """What a program prints."""
    path = os.path.join(folder, "i.txt")
    put(path, TEXT)
    put(os.path.join(folder, "script.py"), script.format(path=path, program=program, outside=OUTSIDE).encode())
    out, errors, status = run([sys.executable, "-B", os.path.join(folder, "script.py")], {"PYTHONPATH": OUTSIDE})
    if b"No module named '_testcapi'" in errors:
        return "left out"
    demand((shown(out), shown(errors), status) == (right, "", 0), "%s: %r, %r" % (script, out, errors))
    return "prints"


def programs_in(folder):
    """Puts the programs that end in faults into the folder."""
    for name, text in PROGRAMS.items():
        put(os.path.join(folder, name), ("#!/bin/sh\n%s\n" % text).encode())
        os.chmod(os.path.join(folder, name), 0o755)


def judge_call(program, folder, seed):
    """A row."""
    kind, call, *told = CALLS[seed]
    if kind == "prints":
        return judge_printed(folder, program, call, *told)
    fitted_out(folder)
    programs_in(folder)
    names = {**vars(vrptw), "TEXT": TEXT, "PLAN": PLAN, "PROOF": certificate(read(TEXT)).encode(),
             "W": vrptw.Instance.from_file(TEXT).rows, "Index": Index, "os": os,
             "solve": with_program(vrptw.solve, program, folder), "check": with_program(vrptw.check, program, folder)}
    before = os.getcwd()
    os.chdir(folder)
    try:
        if kind == "raised":
            judge_raised(names, call, *told)
        else:
            demand(eval(call, names), "%s doesn't hold" % call)
    finally:
        os.chdir(before)
    return kind


def with_program(call, program, folder):
    """A call of the module by the program that is judged, or by one of the folder."""
    def called(*given, **more):
        name = more.pop("program", program)
        return call(*given, program=os.path.join(folder, name) if name in PROGRAMS else os.path.abspath(name), **more)
    return called


KINDS = {
    "schedules": Kind("1 to 8 customers by the module's schedule: all numbers and reasons, by a walk of its own", 60,
                      program_by(judge_schedule)),
    "module_calls": Kind("calls of the module by hand: what they raise, answer and print", len(CALLS),
                         number_by(judge_call), is_fixed=True),
}
