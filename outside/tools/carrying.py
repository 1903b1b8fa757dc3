"""A plan taken to a changed instance: who is known again, who is gone, and where the others fit."""
from itertools import groupby

from reference.instances import walk_times
from tools.knowing import Knowing
from tools.tool import Refused, listed
from tools.touring import Tables, put
from tools.vehicle_numbers import in_order


def fits(instance, route):
    load = sum(instance.demand(i) for i in route)
    return load <= instance.capacity and walk_times(instance, route) is not None


class Carried:
    """Two instances with their names or None, and who is who; notes of what was done, in which customers without a
    table of names are told by their numbers."""

    def __init__(self, instance, changed, names):
        self.changed, self.notes = changed, []
        self.knowing = Knowing((instance, changed), names)
        self.again = self.knowing.again
        self.told = [str if own is None else own.told for own in names]
        numbers = ", by their numbers before" if names[0] is None else ""
        self.note("customers that are gone" + numbers, self.knowing.gone, self.told[0])
        self.note("new customers", self.knowing.new, self.told[1])
        where = [str if own is None else own.told_with_place for own in names]
        self.note("customers that are perhaps gone" + numbers, self.knowing.perhaps_gone, where[0], instance.count)
        self.note("customers that are perhaps new", self.knowing.perhaps_new, where[1], changed.count)

    def note(self, words, numbers, told, *most):
        if numbers:
            self.notes.append("%s: %s" % (words, listed([told(number) for number in sorted(numbers)], *most)))

    def vehicles(self, routes):
        """By customers of the changed instance the vehicles that serve them in routes of the first one."""
        return {self.again[i]: number for number, route in enumerate(routes, 1) for i in route if i in self.again}

    def carry(self, routes, absent=None):
        """The routes of the changed instance that serve each customer once, in the order of the vehicles of before. Who
        fits into none of them is put into the list of those that are absent; without one that is refused."""
        kept = [[self.again[i] for i in route if i in self.again] for route in routes]
        kept, left = self.shortened([route for route in kept if route])
        self.note("customers that no longer fit where they were", left, self.told[1])
        placed_already = {i for route in kept for i in route}
        others = [i for i in range(1, self.changed.count + 1) if i not in placed_already]
        for customer in sorted(others, key=lambda i: (self.changed.due(i), i)):
            if self.put(kept, customer):
                continue
            if absent is None:
                raise Refused("customer %s of the changed instance fits into no route" % self.told[1](customer))
            absent.append(customer)
        return in_order(kept, self.vehicles(routes))

    def shortened(self, routes):
        """The routes as far as they still fit, the longest ones first where there are too many; and who is left."""
        found, left = [], []
        for route in sorted(routes, key=len, reverse=True):
            fitting = []
            for customer in route:
                is_one = len(found) < self.changed.fleet and fits(self.changed, fitting + [customer])
                (fitting if is_one else left).append(customer)
            found += [fitting] if fitting else []
        return found, left

    def put(self, routes, customer):
        """Puts a customer where the way around is shortest, or alone; answers whether there is such a place."""
        arc = self.changed.arc
        ways = sorted((arc[a][customer] + arc[customer][b] - arc[a][b], k, at) for k, route in enumerate(routes)
                      for at, (a, b) in enumerate(zip([0] + route, route + [0])))
        for _, found in groupby(ways, lambda place: place[:2]):
            longer = [(k, routes[k][:at] + [customer] + routes[k][at:]) for _, k, at in found]
            fitting = [(k, route) for k, route in longer if fits(self.changed, route)]
            if fitting:
                k, routes[k] = min(fitting)
                return True
        if len(routes) < self.changed.fleet and fits(self.changed, [customer]):
            routes.append([customer])
            return True
        return False


def placed(instance):
    """Routes that are built customer by customer, those that are due first before the others, and who fits nowhere."""
    tables, tours, left = Tables(instance), [], []
    for customer in sorted(range(1, instance.count + 1), key=lambda i: (instance.due(i), i)):
        if not put(tables, tours, customer, is_alone_last=True):
            left.append(customer)
    return [tour.stops for tour in tours], left
