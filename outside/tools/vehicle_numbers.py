"""Which number a vehicle has: as many customers as can be have a vehicle of the same number as the day before."""
from collections import Counter

from reference.texts import TextFault, read_solution
from tools.respelling import text_of


def ordered(plan, before):
    """The text of a plan with its routes by the numbers of their vehicles; one that isn't right stays."""
    try:
        routes, cost = read_solution(plan)
    except TextFault:
        return plan
    return text_of(in_order(routes, before), cost).encode()


def in_order(routes, before):
    """The routes by the numbers of their vehicles, from 1 on, for which most customers keep the number of before, which
    they have in `before`. The order in which the routes come changes nothing; without numbers of before it stays."""
    if not before:
        return routes
    routes = sorted(routes)
    common = [Counter(before[i] for i in route if before.get(i, len(routes) + 1) <= len(routes)) for route in routes]
    numbers = matched([dict(sorted(one.items())) for one in common])
    free = iter(sorted(set(range(1, len(routes) + 1)) - set(numbers.values())))
    by_number = {numbers[k] if k in numbers else next(free): route for k, route in enumerate(routes)}
    return [by_number[number] for number in sorted(by_number)]


def matched(common):
    """By the places of rows their numbers, each once, with the greatest sum; a row has worths above 0 by number. Of
    rows and numbers those are put together first that add most, and what was put together gives way."""
    own, found = {}, {}
    while True:
        worth, came = reached(common, own, found)
        ends = [(worth[k] + more, -k, -number) for k in worth for number, more in common[k].items()
                if number not in own]
        if not ends or max(ends)[0] <= 0:
            return found
        _, k, number = max(ends)
        k, number = -k, -number
        while number is not None:
            found[k], own[number], number, k = number, k, found.get(k), came[k]


def reached(common, own, found):
    """By rows that can be freed how much that adds at most, which is below 0 for one that gives way, and by which row
    it is freed."""
    worth, came = {k: 0 for k in range(len(common)) if k not in found}, {}
    came.update(dict.fromkeys(worth))
    rest = list(worth)
    while rest:
        k = rest.pop(0)
        for number, more in common[k].items():
            other = own.get(number)
            added = worth[k] + more - common[other][number] if other is not None else 0
            if other not in (None, k) and (other not in worth or added > worth[other]):
                worth[other], came[other] = added, k
                if other not in rest:
                    rest.append(other)
    return worth, came
