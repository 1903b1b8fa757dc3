"""The five kinds of moves by taking, dropping and joining of lists, and the descent by them."""
from reference.instances import is_plan, plan_cost

KINDS = ["relocate", "exchange", "or_opt", "two_opt_star", "cross"]


def kept(routes):
    return [route for route in routes if route]


def moved_chain(routes, a, i, length, b, j):
    """The chain of stops from position i of route a goes before position j of route b."""
    chain = routes[a][i:i + length]
    rest = [list(route) for route in routes] + [[]]
    rest[a] = routes[a][:i] + routes[a][i + length:]
    rest[b] = rest[b][:j] + chain + rest[b][j:]
    return kept(rest)


def chains(routes, length_most):
    for a, route in enumerate(routes):
        for i in range(len(route)):
            for length in range(1, min(length_most, len(route) - i) + 1):
                yield a, i, length


def moved_chains(routes, length_most):
    for a, i, length in chains(routes, length_most):
        for b in range(len(routes) + 1):
            stops = len(routes[b]) if b < len(routes) else 0
            if b == a:
                stops -= length
            for j in range(stops + 1):
                yield moved_chain(routes, a, i, length, b, j)


def exchanges(routes):
    places = [(a, i) for a, route in enumerate(routes) for i in range(len(route))]
    for first, (a, i) in enumerate(places):
        for b, j in places[first + 1:]:
            after = [list(route) for route in routes]
            after[a][i], after[b][j] = routes[b][j], routes[a][i]
            yield after


def exchanged_ends(routes):
    for a in range(len(routes)):
        for i in range(len(routes[a]) + 1):
            for b in range(a + 1, len(routes)):
                for j in range(len(routes[b]) + 1):
                    after = [list(route) for route in routes]
                    after[a] = routes[a][:i] + routes[b][j:]
                    after[b] = routes[b][:j] + routes[a][i:]
                    yield kept(after)


def crosses(routes):
    for a, i, length in chains(routes, 3):
        for b, j, other in chains(routes, 3):
            if b <= a:
                continue
            after = [list(route) for route in routes]
            after[a] = routes[a][:i] + routes[b][j:j + other] + routes[a][i + length:]
            after[b] = routes[b][:j] + routes[a][i:i + length] + routes[b][j + other:]
            yield after


def moves(routes, kind):
    """The results of a kind's moves, in the order of their numbers."""
    if kind == "relocate":
        return moved_chains(routes, 1)
    if kind == "or_opt":
        return moved_chains(routes, 3)
    return {"exchange": exchanges, "two_opt_star": exchanged_ends, "cross": crosses}[kind](routes)


def best_gain(instance, routes, kind):
    """The first of the cheapest results of a kind that cost less, or None."""
    cost, best = plan_cost(instance, routes), None
    for after in moves(routes, kind):
        change = plan_cost(instance, after) - cost
        if change < (best[0] if best else 0) and is_plan(instance, after):
            best = (change, after)
    return best[1] if best else None


def first_gain(instance, routes):
    for kind in KINDS:
        after = best_gain(instance, routes, kind)
        if after is not None:
            return after
    return None


def descend(instance, routes):
    while True:
        after = first_gain(instance, routes)
        if after is None:
            return routes
        routes = after
