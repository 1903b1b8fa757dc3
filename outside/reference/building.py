"""Solomon's insertion heuristic I1, step by step, as the program's first plan is built."""
from reference.instances import walk


def candidates(instance, route, customer, mu, lam, a1):
    """The least criterion and its position, over the positions at which the route stays fitting."""
    begins = walk(instance, route)[0] if route else []
    finish = walk(instance, route)[1] if route else None
    best = None
    for position in range(len(route) + 1):
        longer = route[:position] + [customer] + route[position:]
        after = walk(instance, longer)
        if after is None:
            continue
        before = route[position - 1] if position else 0
        behind = route[position] if position < len(route) else 0
        arc = instance.arc
        detour = 100 * (arc[before][customer] + arc[customer][behind]) - mu * arc[before][behind]
        if position < len(route):
            delay = after[0][position + 1] - begins[position]
        else:
            delay = after[1] - finish
        cost = a1 * detour + 100 * (100 - a1) * delay
        if best is None or cost < best[0]:
            best = (cost, position)
    if best is None:
        return None
    return 100 * lam * arc[0][customer] - best[0], best[1]


def build(instance, mu=100, lam=100, a1=100):
    """The routes, and the customers left."""
    left = list(range(1, instance.count + 1))
    routes = []
    while len(routes) < instance.fleet:
        seeds = [u for u in left if walk(instance, [u])]
        if not seeds:
            break
        seed = max(seeds, key=lambda u: (instance.arc[0][u], -u))
        route = [seed]
        left.remove(seed)
        while True:
            found = [(criterion[0], -u, u, criterion[1]) for u in left
                     for criterion in [candidates(instance, route, u, mu, lam, a1)] if criterion]
            if not found:
                break
            _, _, customer, position = max(found)
            route.insert(position, customer)
            left.remove(customer)
        routes.append(route)
    return routes, left
