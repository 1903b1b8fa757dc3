"""What can be served where not all can be: a plan of some in a folder within, which gets better as long as there is
time."""
import os
import time

from reference.instances import Fault, read
from reference.texts import TextFault, read_solution
from tools.choosing import Choice
from tools.converting import table_of
from tools.day import SERVED, text_in
from tools.layouts import Problem
from tools.left_out import LeftOut
from tools.names import Names
from tools.past import routes_in
from tools.planning import Planner
from tools.priorities import priorities_of
from tools.reasons import proofs_of
from tools.solomon_layout import write_ours
from tools.standing import INSTANCE, PLAN, Folder
from tools.touring import Tables, Tour

# What part of the time left goes to who is served, before the way is made shorter; and to what would do, with the most
# seconds.
PART, ADVICE, MOST_ADVICE = 0.6, 0.15, 20


def reduced(instance, names, kept):
    """The instance of some customers, as its text, and their names."""
    places = [0] + kept
    rows = [instance.rows[i][:3] + tuple(time // 10 for time in instance.rows[i][3:]) for i in places]
    own = Names([names[i] for i in places], names.headings, [names.further[i] for i in places], names.units,
                names.separator)
    return write_ours(Problem(instance.name.decode(), instance.fleet, instance.capacity, rows, own)).encode(), own


class Serving:
    """Leaves as few customers of a planner's instance out as it can; the others' plan stands in a folder within."""

    def __init__(self, planner, names):
        self.planner, self.instance, self.names, self.found = planner, planner.instance, names, None
        # Why no plan is one of all, as far as plain arithmetic tells, and those that no plan can hold.
        self.proofs = proofs_of(self.instance, names)
        self.impossible = sorted({reason.customer for reason in self.proofs} - {None})
        self.kept, self.left_out = [], None
        path = planner.folder.at(SERVED)
        routes = self.known(self.stood(path) or planner.some)
        self.choice = Choice(self.instance, routes, priorities_of(names), self.impossible, planner.given.seed)
        self.folder = Folder(path)

    def __enter__(self):
        return self

    def __exit__(self, *fault):
        self.folder.__exit__(*fault)
        if self.found is None:
            self.planner.folder.drop(SERVED)

    def known(self, routes):
        """Routes without those that no plan can hold."""
        barred = set(self.impossible)
        return [route for route in ([i for i in route if i not in barred] for route in routes) if route]

    def stood(self, path):
        """The routes that stand of this instance, or none."""
        if text_in(os.path.dirname(path), INSTANCE) != self.planner.texts[INSTANCE]:
            return []
        try:
            routes = routes_in(os.path.dirname(path), self.instance) if text_in(path, PLAN) else None
        except (Fault, TextFault):
            return []
        tables = Tables(self.instance)
        is_right = routes and all(Tour(tables, route).holds(tables) for route in routes)
        return routes if is_right and len(routes) <= self.instance.fleet else []

    def is_over(self, until):
        return lambda: self.planner.signals.came or time.monotonic() >= until

    def serve(self, until):
        """Looks for more who can be served, and then for shorter ways, until the time is over or a signal comes."""
        left = until - time.monotonic()
        self.choice.search(self.is_over(time.monotonic() + PART * left))
        self.stand()
        while self.found is not None and not self.is_over(until)():
            before = self.found.cost
            self.found.go_on(until)
            if self.found.cost < before:
                self.choice.begin(self.routes_found())
                self.choice.exchange(self.is_over(until))
            if sorted(i for route in self.choice.routes() for i in route) == self.kept:
                return
            self.stand()

    def routes_found(self):
        """The routes that stand, by the numbers of the whole instance."""
        return [[self.kept[i - 1] for i in route] for route in read_solution(self.found.folder.held(PLAN))[0]]

    def stand(self):
        """Brings the routes of the choice into place, where nobody who fits is left."""
        while self.choice.put_back():
            pass
        routes = [route for route in self.choice.routes() if route]
        self.kept = sorted(i for route in routes for i in route)
        if not self.kept:
            return
        number = {i: place for place, i in enumerate(self.kept, 1)}
        text, names = reduced(self.instance, self.names, self.kept)
        planner = self.planner
        other = Planner(self.folder, read(text), (text, table_of(names).encode()), planner.given, planner.signals,
                        planner.tell)
        other.vehicles_before = {number[i]: vehicle for i, vehicle in planner.vehicles_before.items() if i in number}
        other.stand(time.monotonic())
        other.begin_with([[number[i] for i in route] for route in routes])
        other.take_start()
        if other.cost is not None:
            self.found = other

    def advise(self, until):
        """Tells who is left out, why, and what would do."""
        self.left_out = LeftOut(self.instance, self.names, self.routes_found() if self.found else [], self.impossible)
        left = until - time.monotonic()
        self.left_out.advise(self.is_over(time.monotonic() + min(MOST_ADVICE, left)))
