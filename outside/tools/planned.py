"""What is made of a plan that stands: the timetable, the page, a sentence; and the line that tells how far it is."""
import os
import time

from reference.set_texts import read_either
from reference.texts import read_solution
from tools import sheets
from tools.apart import apart_of
from tools.changing import Changes
from tools.day import CHANGES, LEFT_OUT, NOW, REPORT, SERVED, SHEETS, TIMETABLE
from tools.drawing import plural
from tools.left_out import MOST_TOLD
from tools.names import names_of
from tools.past import past_of
from tools.reporting import FEW, Report, page, why_not
from tools.standing import CERTIFICATE, INSTANCE, NAMES, PLAN
from tools.telling import Telling
from tools.timing import percent, separated

# Pages are thought to take so many times as long as those before; in the midst of the work they are written anew once
# so many times as long as they take is over, and so many seconds.
MEASURED, SELDOM, SELDOM_SECONDS = 1.5, 20, 10
# So many seconds of processor time tell little of a machine.
LEAST_TIME = 0.05


class Line:
    """One line on a terminal that is rewritten: seconds, of so many or None, cost, gap and vehicles."""

    def __init__(self, seconds, units):
        self.seconds, self.telling, self.units = seconds, Telling("", False, 0.2), units
        self.cost = self.bound = None

    def tell(self, planner, came):
        """Tells how far it is; what came is the progress of a round, or None."""
        if came:
            self.cost, self.bound = came.cost_tenths, came.bound_tenths
        if not self.telling.is_due():
            return
        cost = min([cost for cost in (planner.cost, self.cost) if cost is not None], default=None)
        bound = max([bound for bound in (planner.bound, self.bound) if bound is not None], default=None)
        told = "%d s%s: %s" % (time.monotonic() - self.telling.began, " of %d" % self.seconds if self.seconds else "",
                               "no plan yet" if cost is None else measured(self.units, cost))
        if cost is not None and bound is not None:
            told += ", gap %s %%" % percent(max(0, cost - bound), cost)
        if planner.vehicles is not None:
            told += ", %s" % plural(planner.vehicles, "vehicle")
        self.telling.tell(told)

    def end(self):
        self.telling.end()


def measured(units, tenths):
    """A distance in the units that were given."""
    return "%s %s" % (units.distance(tenths), units.measure())


def report_of(planner):
    """The report of the texts that stand; None where none do."""
    folder, instance = planner.folder, planner.instance
    names = names_of(folder.at(NAMES), instance.count)
    routes, cost = read_solution(folder.held(PLAN)) if planner.cost is not None else (None, None)
    certificate = read_either(folder.held(CERTIFICATE)) if planner.bound is not None else None
    if routes is None and certificate is None:
        return None
    paths = [INSTANCE] + ([CERTIFICATE] if certificate else []) + ([PLAN] if routes else [])
    report = Report(instance, names, routes, cost, certificate, None, paths, planner.given.depart)
    report.apart = planner.apart = planner.apart or report.apart
    report.fewest = planner.fewest
    return report


def put_pages(planner, has_sheets, report):
    """Puts the pages of the texts that stand beside these; sheets that are there don't stay those of another plan."""
    folder, instance = planner.folder, planner.instance
    has_sheets = has_sheets or folder.held(SHEETS) is not None
    for name, make in ((TIMETABLE, separated), (SHEETS, sheets.page if has_sheets else None)):
        if planner.cost is None:
            folder.drop(name)
        elif make is separated:
            folder.put(name, separated(instance, report.routes, report.names, report.depart).encode())
        elif make:
            folder.put(name, make(instance, report.names, report.routes, report.depart,
                                  sheets.Extras(language=planner.given.lang)).encode())
    folder.put(REPORT, page(report).encode())


class Clock:
    """The seconds of a command, of which those are kept back that the pages take. Before the first pages that is guessed
    by the number of customers, and by how much slower than alone the command came so far."""

    def __init__(self, began, seconds, customers):
        self.began, self.seconds = began, seconds
        slower = max(1, (time.monotonic() - began) / max(time.process_time(), LEAST_TIME))
        self.back = min(0.6 * seconds, slower * min(0.3 * seconds, 0.3 + customers / 130))

    def until(self):
        """When the pages are begun with."""
        return self.began + self.seconds - self.back

    def part(self, part):
        """The end of a part of the seconds, before which pages are written."""
        return self.began + part * (self.seconds - self.back)

    def note(self, took):
        """Takes in how long pages took, whatever else is at work on the machine."""
        self.back = min(0.6 * self.seconds, max(0.1, MEASURED * took))


class Pages:
    """The pages of a planner's day, and what is said at the end."""

    def __init__(self, planner, names, clock, has_sheets):
        self.planner, self.names, self.clock, self.has_sheets = planner, names, clock, has_sheets
        self.written, self.cost, self.bound = 0.0, None, None
        planner.after_round = self.keep_up

    def keep_up(self):
        """Writes the pages in the midst of a long work, where they are of a plan that was bettered."""
        is_late = time.monotonic() - self.written >= max(SELDOM * self.clock.back, SELDOM_SECONDS)
        if self.planner.cost is not None and is_late and (self.cost, self.bound) != (
                self.planner.cost, self.planner.bound):
            self.write()

    def finish(self):
        """Writes the pages, where they aren't those of what stands already."""
        if (self.cost, self.bound) != (self.planner.cost, self.planner.bound) or not self.written:
            self.write()

    def write(self, serving=None):
        """Writes all pages, and brings the day into place; what that took is kept back at the end."""
        began, planner = time.monotonic(), self.planner
        # Pages that tell the bound aren't replaced by some that can't.
        if planner.is_in_place and not (planner.is_unread and planner.folder.held(REPORT)):
            self.put(serving)
        if planner.is_in_place:
            planner.folder.publish()
        self.written, self.cost, self.bound = time.monotonic(), planner.cost, planner.bound
        self.clock.note(self.written - began)

    def put(self, serving):
        planner = self.planner
        report = report_of(planner)
        if serving is None:
            planner.folder.drop(SERVED)
            planner.folder.drop(LEFT_OUT)
        elif serving.left_out is not None:
            self.put_served(serving, report)
        if report is not None:
            report.changes = self.changes(serving, report)
            put_pages(planner, self.has_sheets, report)

    def put_served(self, serving, report):
        """The pages of those that are served, and the table of those that are left out."""
        planner, found = self.planner, serving.found
        report.why = why_not(planner.instance, report.certificate, serving.names, "", serving.proofs)
        report.left_out = serving.left_out
        planner.folder.put(LEFT_OUT, serving.left_out.table().encode())
        if found is not None:
            report.served = report_of(found)
            report.served.folder, report.served.whom = SERVED + "/", "the others"
            put_pages(found, self.has_sheets, report_of(found))

    def changes(self, serving, report):
        """The changes from the day before, whose table is put beside; None where there is none."""
        planner, folder = self.planner, self.planner.folder
        past = past_of(folder.before())
        routes = report.routes if serving is None else serving.routes_found() if serving.found else None
        if past is None or routes is None or past.carried(planner.instance, self.names) is None:
            folder.drop(CHANGES)
            return None
        found = Changes(past, planner.instance, self.names, routes, planner.given.depart)
        folder.put(CHANGES, found.table().encode())
        return found

    def told(self, serving=None):
        """What is said at the end."""
        planner = self.planner
        if serving is None:
            return sentence(planner, self.names) + (planner.fewest + "\n" if planner.fewest else "")
        found, where = serving.found, planner.folder.in_top(NOW)
        told = [self.head(where, serving.proofs)]
        if found is not None:
            told.append("In %s: %s" % (os.path.join(where, SERVED), sentence(
                found, names_of(found.folder.at(NAMES), found.instance.count), "the others").rstrip("\n")))
        told += serving.left_out.told()
        if len(serving.left_out.rows) > MOST_TOLD:
            told.append("All that are left out are in %s." % os.path.join(where, LEFT_OUT))
        return "\n".join(told) + "\n"

    def head(self, where, proofs):
        """Whether it is known that not all can be served, and by what."""
        planner = self.planner
        certificate = read_either(planner.folder.held(CERTIFICATE)) if planner.bound is not None else None
        why = why_not(planner.instance, certificate, self.names, where, proofs)
        if not why:
            return "No plan of all customers was found; whether there is one isn't known."
        planner.apart = planner.apart or apart_of(planner.instance, self.names)
        is_rounded = planner.apart and all(reason.is_timed for reason in proofs)
        return "There is no plan of all customers%s: %s." % (
            " by " + planner.apart.called if is_rounded else "", "; ".join(why))


def routes_of(planner):
    """The routes that stand, or None."""
    return None if planner.cost is None else read_solution(planner.folder.held(PLAN))[0]


def sentence(planner, names, whom=None):
    """One sentence on what came of the work, and where the table's ways were rounded one on what that says of it."""
    planner.apart = planner.apart or apart_of(planner.instance, names)
    apart, routes, units = planner.apart, routes_of(planner), names.units
    few = FEW if planner.fewest else ""
    told = summed_up(planner, units, whom, apart.told_off(routes) if apart and routes else "",
                     (" of %s" % apart.called if apart else "") + few)
    of_table = apart.told(routes, planner.bound, few) if apart and planner.kind != "NO PLAN" else ""
    return told + (of_table + "\n" if of_table else "")


def summed_up(planner, units, whom, off, whose):
    """What came of the work; the cost with its error, and whose plans a bound is of."""
    if planner.cost is None:
        return "No plan was found%s.\n" % ("" if planner.bound is None else "; every plan%s costs at least %s" % (
            whose, measured(units, planner.bound)))
    whom = whom or "all %s" % plural(planner.instance.count, "customer")
    told = "%s %s and %s %s%s" % (plural(planner.vehicles, "vehicle"), *(
        ("serves " + whom, "drives") if planner.vehicles == 1 else ("serve " + whom, "drive")),
        measured(units, planner.cost), " (%s)" % off if off else "")
    if planner.kind == "BEST":
        return told + ", and no plan%s is shorter.\n" % whose
    if not planner.bound:
        return told + ", and how much shorter a plan%s may be isn't known yet.\n" % whose
    return told + ", and the shortest plan%s saves at most %s %% of that.\n" % (
        whose, percent(planner.cost - planner.bound, planner.cost))
