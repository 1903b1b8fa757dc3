"""A checker of certificates and solutions, by the definitions and without speed."""
from reference import bounding
from reference.instances import Fault, plan_cost, read, walk_times
from reference.needs import need
from reference.set_texts import FIRST_SET, read_either
from reference.texts import TextFault, read_solution, shown


def plan_defect(instance, routes):
    """Why the routes are no plan, as the program names it; None at a plan."""
    stops = [i for route in routes for i in route]
    if any(not route for route in routes):
        return "EmptyRoute"
    if any(not 1 <= i <= instance.count for i in stops):
        return "UnknownCustomer"
    if len(set(stops)) < len(stops):
        return "Twice"
    if len(stops) < instance.count:
        return "Missing"
    if any(sum(instance.demand(i) for i in route) > instance.capacity for route in routes):
        return "OverCapacity"
    if any(walk_times(instance, route) is None for route in routes):
        return "Late"
    if len(routes) > instance.fleet:
        return "FleetExceeded"
    return None


def check(instance_text, certificate_text, solution_text, least):
    """What the program prints on standard output, on standard error, and its status. The solution may be None."""
    try:
        instance = read(instance_text)
    except Fault as fault:
        return "", "vrptw: instance: %s\n" % fault, 3
    try:
        certificate = read_either(certificate_text)
    except TextFault as fault:
        return "", "vrptw: certificate: %s\n" % fault, 5
    try:
        solution = None if solution_text is None else read_solution(solution_text)
    except TextFault as fault:
        return "", "vrptw: solution: %s\n" % fault, 5
    if certificate.name != instance.name:
        return "", "vrptw: check: OtherName\n", 5
    if certificate.count != instance.count:
        return "", "vrptw: check: OtherSize\n", 5
    line = line_of_great_need(instance, certificate.sets)
    if line is not None:
        return "", "vrptw: check: NeedTooGreat line %d\n" % line, 5
    bound = tree_bound(instance, certificate, least)
    if bound != certificate.bound:
        return "", "vrptw: check: BoundDiffers %s %s\n" % (shown(certificate.bound), shown(bound)), 5
    if solution is None:
        return ("NO PLAN\n", "", 0) if bound == instance.ceiling() + 1 else ("BOUND %s\n" % shown(bound), "", 1)
    return check_plan(instance, bound, *solution)


def line_of_great_need(instance, sets):
    """The line of the first set that doesn't need what it is said to; None where each does."""
    for line, one in enumerate(sets, FIRST_SET):
        if one.need > need(instance, one.customers):
            return line
    return None


def tree_bound(instance, certificate, least):
    region = bounding.Region(instance.count)
    return bounding.tree_bound(instance, region, certificate.tree, certificate.neighbours, certificate.version, least)


def check_plan(instance, bound, routes, cost):
    defect = plan_defect(instance, routes)
    if defect:
        return "", "vrptw: plan: %s\n" % defect, 5
    real = plan_cost(instance, routes)
    if real != cost:
        return "", "vrptw: check: CostDiffers %s %s\n" % (shown(cost), shown(real)), 5
    if cost == bound:
        return "BEST %s\n" % shown(cost), "", 0
    return "GAP %s %s\n" % (shown(cost), shown(bound)), "", 1
