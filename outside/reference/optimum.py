"""The least cost of a plan of a few customers, by going through all of them."""


def cheapest_routes(instance):
    """By the set of its customers, as bits, the least cost of a fitting route through them in any order."""
    found, rest = {}, [(0, 0, instance.ready(0), 0, 0)]
    while rest:
        served, at, time, load, cost = rest.pop()
        arcs = instance.arc[at]
        if served and time + arcs[0] <= instance.due(0):
            found[served] = min(found.get(served, cost + arcs[0]), cost + arcs[0])
        for j in range(1, instance.count + 1):
            begin, more = max(time + arcs[j], instance.ready(j)), load + instance.demand(j)
            if not served >> j - 1 & 1 and begin <= instance.due(j) and more <= instance.capacity:
                rest.append((served | 1 << j - 1, j, begin + instance.service(j), more, cost + arcs[j]))
    return found


def least_cost(instance):
    """The least cost of a plan, or None where there is none."""
    count, route = instance.count, cheapest_routes(instance)
    best = {(0, 0): 0}
    for served in range(1 << count):
        for used in range(min(instance.fleet, count)):
            if (served, used) not in best:
                continue
            for subset, cost in route.items():
                if served & subset == 0:
                    key = (served | subset, used + 1)
                    best[key] = min(best.get(key, cost + best[served, used]), cost + best[served, used])
    whole = (1 << count) - 1
    costs = [cost for (served, _), cost in best.items() if served == whole]
    return min(costs) if costs else None
