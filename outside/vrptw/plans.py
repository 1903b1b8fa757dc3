"""Plans, as texts and as objects: when vehicles are where with which load, and why routes are no plan."""
from __future__ import annotations

import operator
import os
import re
from collections import Counter
from dataclasses import dataclass
from typing import Any, Iterable, Mapping, NamedTuple, Optional, Sequence, SupportsIndex, Union

from .answers import Answer
from .faults import BadOptions, BadPlan
from .instances import Given, Instance, Text, held_bytes

# A plan in any form: a text, an answer that has one, a plan as an object, or routes as lists of customers' numbers.
Routes = Union[Text, Answer, "Plan", Iterable[Iterable[SupportsIndex]]]

ROUTE = re.compile(rb"^Route #[0-9]+: ([0-9 ]+)$", re.M)


def customers_of(routes: Iterable[Iterable[SupportsIndex]], count: int) -> list[list[int]]:
    """The customers of routes, without the depot at the ends; a route without any is left out."""
    found = []
    for place, route in enumerate(routes, 1):
        try:
            stops = [operator.index(stop) for stop in route]
        except TypeError:
            raise BadPlan("plan: route %d: met %.60r, wanted the numbers of customers" % (place, route)) from None
        stops = stops[stops[:1] == [0]:len(stops) - (stops[-1:] == [0])]
        wrong = [stop for stop in stops if not 1 <= stop <= count]
        if wrong:
            raise BadPlan("plan: route %d: met customer %d, wanted 1 to %d" % (place, wrong[0], count))
        found += [stops] if stops else []
    return found


def routes_of(instance: Instance, plan: Routes) -> list[list[int]]:
    """The customers of a plan in any form."""
    if isinstance(plan, Plan):
        plan = [route.customers for route in plan.routes]
    elif isinstance(plan, (Answer, str, bytes, os.PathLike)):
        plan = [map(int, found.split()) for found in ROUTE.findall(plan_bytes(b"", plan))]
    return customers_of(plan, len(instance.customers))


def plan_text(instance: Given, routes: Routes) -> bytes:
    """The text of routes at their exact cost: each arc is the distance truncated to a tenth. Raises `BadPlan` for a
    number that is no customer's; whether it is a plan `check` says, and `schedule`."""
    plan = schedule(instance, routes)
    lines = ["Route #%d: %s\n" % (route.route, " ".join(map(str, route.customers))) for route in plan.routes]
    return ("%sCost %d.%d\n" % ("".join(lines), *divmod(plan.cost_tenths, 10))).encode()


def plan_bytes(instance: bytes, plan: Routes) -> bytes:
    """The text of a plan in any form."""
    if isinstance(plan, Answer):
        if not plan.has_plan:
            raise BadPlan("plan: met an answer without one (%s), wanted one whose has_plan is true" % plan.kind)
        return plan.plan
    if isinstance(plan, (str, bytes, os.PathLike)):
        return held_bytes(plan, BadPlan)
    return plan_text(instance, plan)


# A stop in tenths: its number, arrival, wait, begin and end of service, load so far, slack until the due date.
Tenths = tuple[int, int, int, int, int, int, int]


def walked(arcs: Sequence[Sequence[int]], rows: Sequence[Sequence[int]], route: Sequence[int],
           leaves: int) -> list[Tenths]:
    """The stops of a route that leaves then, and the return (0); the slack of a late one is below 0."""
    at, clock, load, found = 0, leaves, 0, []
    for i in (*route, 0):
        _, _, demand, ready, due, service = rows[i]
        arrival = clock + arcs[at][i]
        begin = max(arrival, ready)
        at, clock, load = i, begin + service, load + demand
        found.append((i, arrival, begin - arrival, begin, clock, load, due - begin))
    return found


def leaving(arcs: Sequence[Sequence[int]], rows: Sequence[Sequence[int]], route: Sequence[int]) -> int:
    """When a vehicle leaves: as late as it may without being back later than it has to be, and in time for each due
    date (forward time slack; Savelsbergh 1992). What is late anyway comes no later."""
    opens, waited, rooms = rows[0][3], 0, []
    for _, _, wait, _, _, _, slack in walked(arcs, rows, route, opens):
        waited += wait
        rooms.append(waited + slack)
    return opens + max(0, min(waited, *rooms))


class Stop(NamedTuple("Stop", [("stop", int), ("arrival", float), ("wait", float), ("begin", float), ("end", float),
                               ("load", int), ("slack", float)])):
    """A stop: a customer, or the depot (0) at the return. When the vehicle arrives, how long it waits, when service
    begins and ends, the load so far, and the slack until the due date, which is below 0 where service begins late."""

    @property
    def late(self) -> float:
        """How late service begins; 0 where it is in time."""
        return max(0.0, -self.slack)


class Route(NamedTuple("Route", [("route", int), ("distance", float), ("duration", float), ("waiting", float),
                                 ("driving", float), ("service", float), ("leaves", float), ("back", float),
                                 ("load", int), ("stops", list[Stop])])):
    """A route by its number, its sums, when its vehicle leaves and is back, and its stops with the return."""

    @property
    def customers(self) -> list[int]:
        """The customers, in order."""
        return [stop.stop for stop in self.stops[:-1]]


class Reason(NamedTuple("Reason", [("kind", str), ("route", Optional[int]), ("customer", Optional[int]),
                                   ("line", str)])):
    """Why routes are no plan: the program's word (OverCapacity, Late, Missing, Twice, FleetExceeded), the number of the
    route and of the customer (0 is the depot) that it is about, or None, and a sentence."""


@dataclass(frozen=True)
class Plan:
    """Routes with their times and loads, and all reasons why they are no plan, where they are none."""

    routes: list[Route]
    cost_tenths: int
    reasons: list[Reason]

    @property
    def is_plan(self) -> bool:
        """Whether the routes are a plan of the instance."""
        return not self.reasons

    @property
    def cost(self) -> float:
        """The cost in units."""
        return self.cost_tenths / 10

    def to_dict(self) -> dict[str, Any]:
        """An object of JSON."""
        return {"is_plan": self.is_plan, "cost": self.cost, "cost_tenths": self.cost_tenths, "routes": [
            {**route._asdict(), "stops": [{**stop._asdict(), "late": stop.late} for stop in route.stops]}
            for route in self.routes], "reasons": [reason._asdict() for reason in self.reasons]}

    @classmethod
    def from_dict(cls, told: Mapping[str, Any]) -> Plan:
        """What was told so; other names are passed over."""
        return cls([Route._make([*(route[name] for name in Route._fields[:-1]), [
            Stop._make(stop[name] for name in Stop._fields) for stop in route["stops"]]]) for route in told["routes"]],
                   told["cost_tenths"], [Reason(**reason) for reason in told["reasons"]])


def timed(instance: Instance, place: int, route: Sequence[int], is_early: bool) -> Route:
    """A route with its times, in units."""
    arcs, rows = instance.tenths
    leaves = rows[0][3] if is_early else leaving(arcs, rows, route)
    found = walked(arcs, rows, route, leaves)
    back, driving = found[-1][4], sum(arcs[i][j] for i, j in zip((0, *route), (*route, 0)))
    sums = (driving, back - leaves, sum(stop[2] for stop in found), driving,
            sum(stop[4] - stop[3] for stop in found), leaves, back)
    stops = [Stop._make([i, *(moment / 10 for moment in times), load, slack / 10]) for i, *times, load, slack in found]
    return Route._make([place, *(value / 10 for value in sums), found[-1][5], stops])


def reasons_of(instance: Instance, routes: Sequence[Route]) -> list[Reason]:
    """All reasons why routes are no plan."""
    found = [Reason("OverCapacity", route.route, None, "route %d carries %d, and a vehicle holds %d" % (
        route.route, route.load, instance.capacity)) for route in routes if route.load > instance.capacity]
    found += [Reason("Late", route.route, stop.stop, "route %d is at %s at %.1f, %.1f late" % (
        route.route, "customer %d" % stop.stop if stop.stop else "the depot", stop.begin, stop.late))
              for route in routes for stop in route.stops if stop.late]
    times = Counter(i for route in routes for i in route.customers)
    found += [Reason("Twice" if times[i] else "Missing", None, i, "customer %d is served %d times" % (i, times[i]))
              for i in instance.customers if times[i] != 1]
    return found + [Reason("FleetExceeded", None, None, "%d vehicles drive, and there are %d" % (
        len(routes), instance.vehicles))] * (len(routes) > instance.vehicles)


def schedule(instance: Given, routes: Routes, *, depart: str = "late") -> Plan:
    """When vehicles are where with which load, and whether routes are a plan. Vehicles leave as late as they may
    without being back later, or with `depart="early"` when the depot opens."""
    if depart not in ("late", "early"):
        raise BadOptions("depart: met %.40r, wanted late or early" % depart)
    own = instance if isinstance(instance, Instance) else Instance.from_file(instance)
    found = [timed(own, place, route, depart == "early") for place, route in enumerate(routes_of(own, routes), 1)]
    return Plan(found, sum(round(10 * route.distance) for route in found), reasons_of(own, found))
