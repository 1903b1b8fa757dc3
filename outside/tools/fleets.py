"""How few vehicles do: fleets of an instance from both sides, with a plan or a certificate of each."""
import copy
import os
import re
import time

from reference.texts import shown
from tools.judged import judged
from tools.layouts import Problem
from tools.planned import Line
from tools.planning import Planner
from tools.reasons import reasons
from tools.respelling import certificate
from tools.solomon_layout import write_ours
from tools.standing import CERTIFICATE, INSTANCE, NAMES, PLAN
from tools.tool import Refused, content, told_path
from tools.units import units_of
from vrptw import verdict_of

# How the texts of a fleet end in a folder, by what a planner calls them.
ENDINGS = {INSTANCE: "instance", PLAN: "plan", CERTIFICATE: "certificate"}
TEXT = re.compile(r"([1-9][0-9]{0,3})\.(plan|certificate)\Z")
# The first look at a fleet has this part of the seconds, and at least so many; each round of looks has twice as many.
PART, LEAST_SECONDS, GROWTH = 1 / 40, 0.5, 2
# The fleets that are looked at in turn, by the lower side and the upper one: a plan is most likely at the largest of
# them, and a proof that there is none at the smallest.
CHOICES = (lambda low, high: high - 1, lambda low, high: (low + high - 1) // 2, lambda low, high: low)
# Each look at a fleet begins with seeds of its own.
SEEDS = 1000


def with_fleet(instance, fleet):
    """The text of an instance with another fleet, and what is read from it."""
    rows = [row[:3] + tuple(moment // 10 for moment in row[3:]) for row in instance.rows]
    text = write_ours(Problem(instance.name.decode(), fleet, instance.capacity, rows, None)).encode()
    other = copy.copy(instance)
    other.fleet = fleet
    return text, other


class Found:
    """What is known: no fleet below `low` does, and `high` does where it isn't None; kind, cost and bound of what
    stands by the check, by the fleet."""

    def __init__(self, instance):
        self.instance, self.known = instance, {}
        self.proofs = [reason for reason in reasons(instance) if reason.proves]

    def note(self, fleet, kind, cost, bound):
        self.known[fleet] = kind, cost, bound

    @property
    def low(self):
        """One more than the largest fleet that is known not to do."""
        proved = [fleet for fleet, (kind, _, _) in self.known.items() if kind == "NO PLAN"]
        return max([self.instance.fewest_routes(), 1, *(fleet + 1 for fleet in proved)])

    @property
    def high(self):
        """The smallest fleet that has a plan, or None."""
        return min((fleet for fleet, (_, cost, _) in self.known.items() if cost is not None), default=None)

    def has_none(self):
        """Whether the whole fleet is known not to do."""
        return bool(self.proofs) or self.low > self.instance.fleet


class Side:
    """The texts of one fleet in a folder, by the names that a planner has for them."""

    def __init__(self, folder, fleet):
        self.folder, self.fleet = folder, fleet

    def name(self, name):
        return "%d.%s" % (self.fleet, ENDINGS.get(name, name))

    def at(self, name):
        return self.folder.at(self.name(name))

    def beside(self, name):
        return self.folder.beside(self.name(name))

    def held(self, name):
        # Customers have no names here.
        return b"" if name == NAMES else self.folder.held(self.name(name))

    def put_beside(self, name, text):
        return self.folder.put_beside(self.name(name), text)

    def take(self, *names):
        self.folder.take(*map(self.name, names))

    def put(self, name, text):
        self.folder.put(self.name(name), text)

    def drop(self, name):
        self.folder.drop(self.name(name))


class Fleets:
    """Fleets of an instance in a folder, each with its planner."""

    def __init__(self, folder, instance, given, signals, until):
        self.folder, self.instance, self.given, self.signals, self.until = folder, instance, given, signals, until
        self.found, self.planners, self.looks = Found(instance), {}, 0
        self.line = Line(given.seconds, units_of(None))
        folder.put_instance(with_fleet(instance, instance.fleet)[0])

    def planner(self, fleet):
        """The planner of a fleet, with what stands of it."""
        if fleet not in self.planners:
            text, instance = with_fleet(self.instance, fleet)
            side = Side(self.folder, fleet)
            side.put(INSTANCE, text)
            planner = Planner(side, instance, (text, b""), copy.copy(self.given), self.signals, self.line.tell)
            planner.stand(self.until)
            for name, known in ((PLAN, planner.cost), (CERTIFICATE, planner.bound)):
                if known is None and not planner.is_unread:
                    # The check doesn't take it.
                    side.drop(name)
            self.planners[fleet] = planner
            self.note(fleet)
        return self.planners[fleet]

    def note(self, fleet):
        """Takes in what a planner knows; a plan with fewer routes is one of that smaller fleet, too."""
        planner = self.planners[fleet]
        self.found.note(fleet, planner.kind, planner.cost, planner.bound)
        fewer = planner.vehicles
        if fewer is not None and fewer < fleet and self.planner(fewer).cost is None:
            before = self.planners.pop(fewer)
            before.folder.put(PLAN, planner.folder.held(PLAN))
            self.planner(fewer).notes[:0] = before.notes

    def look(self, fleet, until, is_any_enough):
        """Works at a fleet until it is known whether it does, or further, to the cheapest plan; or the time is over."""
        planner = self.planner(fleet)
        planner.given.seed = self.given.seed + SEEDS * self.looks
        self.looks += 1
        planner.go_on(until, is_any_enough)
        if planner.kind == "OPEN" and planner.cost is None:
            # It shows nothing, and the next look can't go on from it.
            planner.folder.drop(CERTIFICATE)
            planner.bound = planner.kind = None
        self.note(fleet)

    def stand(self):
        """Takes in the texts that stand."""
        for fleet in sorted(fleets_in(self.folder.path), reverse=True):
            if fleet <= self.instance.fleet:
                self.planner(fleet)

    def narrow(self):
        """Looks at fleets from both sides until they meet, and then for the cheapest plan of the fewest vehicles."""
        self.stand()
        if self.found.high is None and not self.found.has_none():
            self.look(self.instance.fleet, self.until, True)
        seconds = max(LEAST_SECONDS, PART * (self.until - time.monotonic()))
        while self.is_between():
            for choose in CHOICES:
                if self.is_between():
                    until = min(self.until, time.monotonic() + seconds)
                    self.look(choose(self.found.low, self.found.high), until, True)
            seconds *= GROWTH
        if self.found.high is not None and self.found.low == self.found.high:
            self.look(self.found.high, self.until, False)
            self.planners[self.found.high].fall_back()
            self.note(self.found.high)
        self.line.end()

    def is_between(self):
        """Whether a fleet is left of which it isn't known whether it does, and there is time."""
        is_over = self.signals.came or time.monotonic() >= self.until
        return not is_over and self.found.high is not None and self.found.low < self.found.high

    def notes(self):
        return list(dict.fromkeys(note for planner in self.planners.values() for note in planner.notes))


def fleets_in(path):
    """The fleets of which a plan or a certificate stands in a folder."""
    return {int(found[1]) for found in map(TEXT.match, os.listdir(path)) if found}


def checked_fleets(instance, path, program):
    """What the texts of a folder show by the check alone; one that isn't right is refused."""
    if not os.path.isdir(path):
        raise Refused("%s: met no folder, wanted that of --into" % path)
    found = Found(instance)
    for fleet in sorted(fleets_in(path)):
        text, other = with_fleet(instance, fleet)
        paths = [os.path.join(path, "%d.%s" % (fleet, ENDINGS[name])) for name in (INSTANCE, PLAN, CERTIFICATE)]
        own, plan, proof = (content(name) if os.path.exists(name) else None for name in paths)
        if own not in (None, text):
            raise Refused("%s: met another text, wanted that of INSTANCE with %d vehicles" % (paths[0], fleet))
        line, fault = judged(program, text, certificate(other).encode() if proof is None else proof, plan)
        kind, cost, bound = verdict_of(line)
        if kind is None:
            raise Refused("%s: vrptw check says of %d vehicles: %s" % (told_path(path), fleet, fault))
        if fleet <= instance.fleet:
            found.note(fleet, kind, cost, bound)
    return found


def told_of(found):
    """What is known, in lines, and whether the fewest number is shown, or that there is no plan."""
    instance, low, high = found.instance, found.low, found.high
    if found.has_none():
        return "NO PLAN\n%s\n" % ("; ".join(reason.told for reason in found.proofs) or below(found)), True
    if high is None:
        return "FEWEST %d OPEN\n%s\nno plan was found with %d or fewer\n" % (low, below(found), instance.fleet), False
    kind, cost, bound = found.known[high]
    if low < high:
        return "FEWEST %d to %d\n%s\n%d do: %d.plan costs %s\n" % (
            low, high, below(found), high, high, shown(cost)), False
    if kind == "BEST":
        return "FEWEST %d BEST %s\n%s\n%d do: %d.plan, and by %d.certificate none with so many is cheaper\n" % (
            high, shown(cost), below(found), high, high, high), True
    return "FEWEST %d GAP %s %s\n%s\n%d do: %d.plan%s\n" % (
        high, shown(cost), shown(bound or 0), below(found), high, high,
        ", and by %d.certificate each with so many costs at least %s" % (high, shown(bound)) if bound else ""), True


def below(found):
    """Why one vehicle fewer than the lower side doesn't do."""
    fewer, instance = found.low - 1, found.instance
    if fewer == 0:
        return "none has no vehicle"
    if found.known.get(fewer, (None,))[0] == "NO PLAN":
        return "%d don't do: %d.certificate" % (fewer, fewer)
    return "%d don't do: the demands are %d, and so many hold %d" % (
        fewer, sum(row[2] for row in instance.rows), fewer * instance.capacity)
