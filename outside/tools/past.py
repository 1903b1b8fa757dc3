"""A day that stood: its instance, names and routes, and who of another day's customers is known there."""
import os

from reference.instances import Fault, read
from reference.texts import TextFault, read_solution
from tools.carrying import Carried
from tools.day import SERVED, text_in
from tools.names import Names, names_of
from tools.standing import INSTANCE, NAMES, PLAN
from tools.tool import Refused


def numbers_in(whole, some):
    """By the numbers of an instance of some customers, in their order, those of the whole one; None where it isn't one
    of these."""
    found, rest = [0], list(range(1, whole.count + 1))
    for row in some.rows[1:]:
        while rest and whole.rows[rest[0]] != row:
            rest.pop(0)
        if not rest:
            return None
        found.append(rest.pop(0))
    return found


def routes_in(path, instance):
    """The routes that stand in a folder, or of those that are served there; None where none stand."""
    if text_in(path, PLAN):
        return read_solution(text_in(path, PLAN))[0]
    within = os.path.join(path, SERVED)
    text, plan = text_in(within, INSTANCE), text_in(within, PLAN)
    numbers = numbers_in(instance, read(text)) if text and plan else None
    return None if numbers is None else [[numbers[i] for i in route] for route in read_solution(plan)[0]]


class Past:
    """A day's instance, names and routes."""

    def __init__(self, instance, names, routes):
        self.instance, self.names, self.routes = instance, names, routes

    def carried(self, instance, names):
        """Who is known again in another instance; None where neither numbers nor names nor places tell."""
        found = Carried(self.instance, instance, (self.names, names))
        return found if found.knowing.tells else None

    def vehicles(self, instance, names):
        """By customers of another instance the vehicles that serve them on this day, as far as they are known again."""
        found = self.carried(instance, names)
        return found.vehicles(self.routes) if found else {}

    def known(self, instance, names):
        """How many of another instance's customers this day serves."""
        found = self.carried(instance, names)
        return sum(i in found.again for route in self.routes for i in route) if found else 0


def past_of(path):
    """The day in a folder; None where no plan stands there. What isn't right is no day."""
    text = text_in(path, INSTANCE) if path else None
    if not text:
        return None
    try:
        instance = read(text)
        routes = routes_in(path, instance)
        has_names = os.path.exists(os.path.join(path, NAMES))
        names = names_of(os.path.join(path, NAMES), instance.count) if has_names else Names(
            ["depot", *map(str, range(1, instance.count + 1))])
        in_range = routes and all(1 <= i <= instance.count for route in routes for i in route)
        return Past(instance, names, routes) if in_range else None
    except (Fault, TextFault, Refused):
        return None
