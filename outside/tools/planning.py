"""Rounds of solving, each from the best plan so far: what is cheaper or higher, and was checked, comes into place."""
import re
import time

from reference.instances import plan_cost
from reference.texts import tenths
from tools.carrying import placed
from tools.judged import judged, ran
from tools.respelling import certificate, text_of
from tools.standing import CERTIFICATE, INSTANCE, NAMES, PLAN, TREES, lack_of
from tools.stopping import Patience
from tools.tool import Refused, count
from tools.vehicle_numbers import ordered
from vrptw import SETS, Schedule, neighbours_for, neighbours_of, serves, verdict_of
from vrptw.met import plans_in

START = "start.txt"
# What the program says where it couldn't read or write a file.
NO_FILE = "vrptw: file"
# Where a round writes each plan that it meets.
PLANS = "plans.txt"
# How many seconds the check of a certificate that stands goes on after a signal, from its start.
PATIENCE = 3
# The line of a certificate that tells its bound.
BOUND = re.compile(rb"^BOUND ([0-9]+\.[0-9])$", re.M)
# The options of solve that are handed on, with the least number and the greatest.
HANDED_ON = (("searchers", 1, 32, "threads that look for a plan"), ("bounders", 1, 32, "threads that raise the bound"),
             ("labels", 1, 10 ** 8, "labels active at once in a pricing"),
             ("rows", 0, 1000, "rows of three customers that may have prices in the proof"))


def add_solving(parser, neighbours="in place of 8 and 12 in turn"):
    """Adds the options by which rounds are made."""
    for name, low, high, told in HANDED_ON:
        parser.add_argument("--" + name, type=count(low, high), metavar="N", help="%s, as solve has it" % told)
    parser.add_argument("--neighbours", type=count(0, 15), metavar="N", help=neighbours)
    parser.add_argument("--sets", type=count(0, 1000), default=SETS, metavar="N",
                       help="sets of customers that may have prices in the proof (default %(default)s)")
    parser.add_argument("--seed", type=count(0, 999_999_999), default=1, metavar="N", help="that of the first round")


def handed_on(given):
    """The options of solve that were given, and how many sets may have prices."""
    names = [name for name, _, _, _ in HANDED_ON if getattr(given, name) is not None] + ["sets"]
    return [word for name in names for word in ("--" + name, str(getattr(given, name)))]


def held(path):
    with open(path, "rb") as file:
        return file.read()


def bound_told(text):
    """The bound that a certificate prints; -1 where its text has none."""
    found = BOUND.search(text)
    return tenths(found[1]) if found else -1


class Planner:
    """A folder, an instance with its text and its table of names or None, and what is known: cost, bound, count of
    vehicles and kind of verdict of the texts that stand, all None where none does."""

    def __init__(self, folder, instance, texts, given, signals, tell):
        self.folder, self.instance, self.given, self.signals, self.tell = folder, instance, given, signals, tell
        self.is_unread = self.is_built = False
        self.cost = self.bound = self.vehicles = self.kind = self.start = None
        # What the pages say of fewer vehicles, and routes of some customers to begin with.
        self.fewest, self.some = "", []
        # By customers the vehicles that served them the day before, whose numbers stay.
        self.vehicles_before = {}
        # How far the instance is from its table, once that is known.
        self.apart = None
        # The counts of neighbours whose trees were refused, and the certificates whose trees don't serve.
        self.left_out, self.early = set(), set()
        # What is done behind each round.
        self.notes, self.after_round = [], lambda: None
        self.texts = {name: text for name, text in zip((INSTANCE, NAMES), texts) if text is not None}
        for name, text in self.texts.items():
            folder.put_beside(name, text)
        self.is_in_place = folder.held(INSTANCE) == self.texts[INSTANCE]

    def ran(self, command, signals, until, tell=None):
        """What came of a run of the program, which is broken off by a signal or when the time is over."""
        return ran(command, lambda: signals.came or time.monotonic() >= until, tell)

    def checked(self, certificate_path, plan_path, until, signals=None):
        """What the check says of two texts: kind, cost and bound, all None where they aren't right or it was broken
        off; and its line of a fault."""
        command = [self.given.program, "check", self.folder.beside(INSTANCE), certificate_path]
        command += [] if plan_path is None else ["--solution", plan_path]
        came = self.ran(command, signals or self.signals, until)
        kind, cost, bound = verdict_of(came.line) if came.status in (0, 1) else (None, None, None)
        return kind, cost, self.instance.ceiling() + 1 if kind == "NO PLAN" else bound, came.fault

    def stand(self, until):
        """Takes in the texts that stand of this instance, as far as they are right. A signal or the end of the time
        doesn't break off the check of the plan, and that of the certificate after some seconds alone."""
        plan, proof = self.folder.held(PLAN), self.folder.held(CERTIFICATE)
        if not self.is_in_place:
            return
        if self.folder.held(NAMES) != self.texts.get(NAMES, self.folder.held(NAMES)):
            self.folder.take(NAMES)
        if plan:
            plan = self.ordered(plan)
            line, fault = judged(self.given.program, self.texts[INSTANCE], certificate(self.instance).encode(), plan)
            _, self.cost, _ = verdict_of(line)
            self.note_fault(PLAN, fault)
        if self.cost is not None:
            self.vehicles = plan.count(b"\nRoute #") + 1
            if plan != self.folder.held(PLAN):
                self.folder.put(PLAN, plan)
        if proof:
            patient = Patience(self.signals, PATIENCE)
            until = max(until, time.monotonic() + PATIENCE)
            kind, _, self.bound, fault = self.checked(self.folder.at(CERTIFICATE), None, until, patient)
            self.note_fault(CERTIFICATE, fault)
            self.is_unread = kind is None and not fault
        self.judge()

    def ordered(self, plan):
        """The text of a plan with the vehicles' numbers of the day before."""
        return ordered(plan, self.vehicles_before)

    def note_fault(self, name, fault):
        if fault:
            self.notes.append("%s isn't gone on from: %s" % (self.folder.at(name), fault))

    def judge(self):
        """The kind of verdict by cost and bound."""
        if self.bound is not None and self.bound > self.instance.ceiling():
            self.kind = "NO PLAN"
        elif self.bound is not None:
            self.kind = "OPEN" if self.cost is None else "BEST" if self.cost == self.bound else "GAP"

    def is_done(self):
        """Whether nothing more is to be found, or as much as was asked for."""
        if self.kind == "GAP" and self.given.gap:
            return 1000 * (self.cost - self.bound) <= self.given.gap * self.cost
        return self.kind in ("BEST", "NO PLAN")

    def carry(self, past, names):
        """Takes the plan of another day along, by the names of both, or by places where one of them has none."""
        if self.is_in_place or past is None:
            return
        found, absent = past.carried(self.instance, names), []
        if found is None:
            self.note_fault(PLAN, "its places are in other units, and not all of both have names")
            return
        routes = found.carry(past.routes, absent)
        self.notes += found.notes
        self.some = routes
        if absent:
            self.notes.append("these fit into no route of the plan before, and begin absent: %s" % ", ".join(
                names.told(i) for i in absent))
            return
        self.begin_with(routes)

    def build(self):
        """Builds a plan customer by customer, once, to begin with, where all have a place."""
        routes, unfit = ([], [0]) if self.is_built else placed(self.instance)
        self.is_built = True
        if not unfit:
            self.begin_with(routes)

    def begin_with(self, routes):
        """Takes a plan to begin with, which is no dearer at the end."""
        self.start = self.folder.put_beside(START, text_of(routes, plan_cost(self.instance, routes)).encode())

    def fall_back(self):
        """Where no round came to a plan, the one to begin with comes into place, with a bound of 0."""
        if self.cost is not None or self.kind == "NO PLAN" or self.is_unread:
            return
        if self.start is None:
            self.build()
        if self.start is not None:
            self.take_start()

    def take_start(self):
        """Brings the plan to begin with into place, where it is better, with a bound of 0 where none is known."""
        fault = self.take_texts(held(self.start), certificate(self.instance).encode())
        if fault:
            self.notes.append("the plan to begin with isn't taken: %s" % fault)

    def stand_open(self):
        """Brings the instance into place where nothing is known of it, with a bound of 0."""
        if self.bound is None and not self.is_unread:
            self.folder.put_beside(CERTIFICATE, certificate(self.instance).encode())
            self.take(None, 0)

    def take_texts(self, plan, proof):
        """Brings a plan and a certificate into place where they are better; answers why the check doesn't take them."""
        plan = self.ordered(plan)
        self.folder.put_beside(PLAN, plan)
        self.folder.put_beside(CERTIFICATE, proof)
        line, fault = judged(self.given.program, self.texts[INSTANCE], proof, plan)
        kind, cost, bound = verdict_of(line)
        if kind is not None:
            self.take(cost, bound)
        return fault

    def go_on(self, until, is_any_enough=False, schedule=None):
        """Makes rounds until nothing is left to find, the time is over, or a signal comes; or a plan stands, where any
        is enough. A schedule goes on with the one of rounds before."""
        schedule, number = schedule or Schedule(self.counts_of_neighbours()), 0
        while not (self.is_done() or self.signals.came or is_any_enough and self.cost is not None):
            chosen = schedule.next(until - time.monotonic())
            if chosen is None:
                return
            began = time.monotonic()
            bound, fault = self.round(*chosen, self.given.seed + number, until)
            number += 1
            if fault and not schedule.drop(chosen[1]):
                self.refuse(fault)
                return
            if bound is not None:
                schedule.note(*chosen, time.monotonic() - began, bound)
                self.after_round()
            elif not fault:
                return

    def counts_of_neighbours(self):
        """The counts of neighbours that rounds take in turn."""
        if self.given.neighbours is not None:
            return (self.given.neighbours,)
        return neighbours_for(self.texts[INSTANCE])

    def refuse(self, fault):
        """Tells a fault of the program, which costs nothing where a plan stands."""
        if self.kind is None:
            raise Refused(fault)
        self.notes.append("the last round ended in a fault: %s" % fault)

    def round(self, turns, neighbours, seed, until):
        """One round: its bound and no fault; no bound where it was broken off; or the fault of the program."""
        plan, proof = self.folder.beside(PLAN), self.folder.beside(CERTIFICATE)
        met = self.folder.put_beside(PLANS, b"")
        tree = self.tree_of(neighbours)
        command = [self.given.program, "solve", self.folder.beside(INSTANCE), plan, proof, "--progress",
                 "--plans", met, "--turns", str(turns), "--seed", str(seed % 2 ** 32)]
        if tree is not None:
            command += ["--tree", self.folder.at(tree)]
        elif neighbours is not None:
            command += ["--neighbours", str(neighbours)]
        start = self.folder.at(PLAN) if self.cost is not None else self.start
        command += self.given.options + (["--start", start] if start else [])
        came = self.ran(command, self.signals, until, self.tell_of)
        if came.status is None:
            self.take_met(met)
            return None, None
        kind, cost, _ = verdict_of(came.line)
        if kind is None and tree is not None and self.leaves_out(neighbours):
            return self.round(turns, neighbours, seed, until)
        if kind is None:
            lack = lack_of(plan) if came.fault == NO_FILE else None
            return None, lack and "%s: %s" % (self.folder.at(PLAN), lack) or came.fault or (
                "the program ended with status %d" % came.status)
        if cost is not None:
            self.folder.put_beside(PLAN, self.ordered(held(plan)))
        kind, cost, bound, fault = self.checked(proof, None if cost is None else plan, until)
        if kind is None:
            return None, "the check says %s" % fault if fault else None
        text = held(proof)
        self.take(cost, bound)
        self.keep_tree(neighbours, text)
        return bound, None

    def take_met(self, path):
        """Brings the cheapest plan that a broken-off round has met into place, with a bound of 0 where none is known."""
        found = list(plans_in(held(path)))
        if found and (self.cost is None or found[-1][0] < self.cost):
            fault = self.take_texts(found[-1][1], certificate(self.instance).encode())
            if fault:
                self.notes.append("the plan that a round has met isn't taken: %s" % fault)

    def tree_of(self, neighbours):
        """Which certificate a round goes on from: of those with so many neighbours that whose bound is highest."""
        if not self.is_in_place or neighbours in self.left_out:
            return None
        found = [(bound_told(text), name) for name in (TREES[neighbours], CERTIFICATE)
                 for text in [self.folder.held(name)]
                 if text and text not in self.early and neighbours_of(text) == neighbours]
        return max(found)[1] if found else None

    def leaves_out(self, neighbours):
        """Leaves out a tree that the program refused: its leaves took more labels than before, say. Answers whether
        a round may begin without it."""
        self.left_out.add(neighbours)
        return True

    def keep_tree(self, neighbours, text):
        """Keeps the certificate of a round for the next one with so many neighbours, if it serves."""
        if not self.is_in_place:
            return
        if serves(text, self.texts[INSTANCE]):
            self.folder.put(TREES[neighbours], text)
            self.left_out.discard(neighbours)
        else:
            self.early.add(text)

    def is_higher(self, bound):
        """Whether a certificate of this bound comes into place."""
        return self.bound is None or bound > self.bound

    def take(self, cost, bound):
        """Brings what is better into place; of another instance all texts."""
        if not self.is_in_place:
            self.replace(cost is not None)
        else:
            if cost is not None and (self.cost is None or cost < self.cost):
                self.folder.take(PLAN)
            if self.is_higher(bound):
                self.folder.take(CERTIFICATE)
        if cost is not None and (self.cost is None or cost < self.cost):
            self.cost, self.vehicles = cost, self.folder.held(PLAN).count(b"\nRoute #") + 1
        self.bound = bound if self.bound is None else max(bound, self.bound)
        self.judge()

    def replace(self, has_plan):
        """Brings the texts of this instance in the place of another's."""
        # Texts of both are never told by an instance.
        for name in (INSTANCE, *TREES.values()) if has_plan else (INSTANCE, PLAN, *TREES.values()):
            self.folder.drop(name)
        self.folder.take(NAMES, *([PLAN] if has_plan else []), CERTIFICATE, INSTANCE)
        self.folder.put_beside(INSTANCE, self.texts[INSTANCE])
        self.is_in_place = True

    def tell_of(self, told):
        """Tells how far a round is, beside what stands."""
        self.tell(self, told)
