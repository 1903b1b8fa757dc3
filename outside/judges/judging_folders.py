"""Some runs of `plan` on one folder over changed days, ended at any moment: sheets, timetable, plan and names are of
one day, what stood before is whole, and a mistyped number and its correction lose nothing."""
import os
import signal
import subprocess
import time

from judges.judging_breaks import ENDING, SIGNALS, Table, broken_off, judge_ended, standing
from judges.judging_changes import judge_changes
from judges.judging_layouts import tool
from judges.kind import Kind, program_by
from judges.running import demand, got
from reference.instances import read
from tools.day import files_of
from tools.names import names_of
from tools.places import OUTSIDE

# How many seconds a command has that isn't broken off, and when it is broken off at the latest.
SECONDS, LATEST = 2, 2.2
# How many days a run has at most.
MOST_DAYS = 5


def demand_pages(path):
    """The pages of a folder are byte by byte those that the tools make of its texts."""
    instance, plan, names = (os.path.join(path, name) for name in ("instance.txt", "plan.txt", "names.csv"))
    demand(len(names_of(names, read(got(instance)).count)) == read(got(instance)).count + 1, "names of another day")
    sheets, timetable = (got(os.path.join(path, name)) for name in ("drivers.html", "timetable.csv"))
    if not os.path.exists(plan):
        demand(sheets is None and timetable is None, "pages without a plan in %s" % path)
        return
    for held, words in ((sheets, ["sheets", instance, plan]), (timetable, ["timetable", instance, plan, "--csv"])):
        out, errors, status = tool(*words, "--names", names)
        demand((errors, status) == ("", 0), "%s of %s: %r" % (words[0], path, errors))
        demand(held == out, "%s of another plan in %s" % (words[0], path))


def demand_whole(program, folder, path):
    """A day in a folder: texts that the check takes, and pages of them, also of those that are served."""
    if not os.path.isdir(path):
        return None
    standing(program, folder, path)
    demand_pages(path)
    served = os.path.join(path, "served")
    if os.path.isdir(served):
        demand(not os.path.exists(os.path.join(path, "plan.txt")), "plans of all and of some in %s" % path)
        standing(program, folder, served)
        demand_pages(served)
        demand_left_out(path, served)
    return files_of(path)


def demand_left_out(path, served):
    """Those who are left out are all but the ones that are served."""
    told = [line.split(",")[0] for line in got(os.path.join(path, "left_out.csv")).decode().split("\n")[1:] if line]
    names = [names_of(os.path.join(at, "names.csv"), read(got(os.path.join(at, "instance.txt"))).count)
             for at in (path, served)]
    demand(sorted(told + names[1][1:]) == sorted(names[0][1:]), "left out are %r of another day" % told)


def killed_in_turn(words, into, delay):
    """A command that is killed once it begins to bring a day into place, some microseconds later."""
    child = subprocess.Popen(words, stdin=subprocess.DEVNULL, stdout=subprocess.PIPE, stderr=subprocess.PIPE)
    until = time.monotonic() + ENDING
    while child.poll() is None and time.monotonic() < until:
        work = [name for name in os.listdir(into) if name.startswith(".plan_")] if os.path.isdir(into) else []
        if work and any(os.path.exists(os.path.join(into, name, "next")) for name in work):
            time.sleep(delay)
            child.kill()
            break
    out, errors = child.communicate(timeout=ENDING)
    return child.returncode, out.decode(), errors.decode()


class Days:
    """A folder and a table over some days."""

    def __init__(self, program, folder, random):
        self.program, self.folder, self.random = program, folder, random
        self.into, self.table = os.path.join(folder, "monday"), Table(random, os.path.join(folder, "customers.csv"))
        self.now = self.before = None
        vehicles = random.choice(["25", "25", "2"])
        self.words = [os.path.join(OUTSIDE, "plan"), self.table.path, "--into", self.into, "--seconds", str(SECONDS),
                      "--program", program, "--vehicles", vehicles, "--capacity", str(self.table.capacity),
                      "--searchers", "1", "--bounders", "1", "--drivers"]

    def stands(self):
        """Takes in what stands: each day is whole, and the one before stood here before."""
        now, before = (demand_whole(self.program, self.folder, os.path.join(self.into, name))
                       for name in ("now", "before"))
        demand(before is None or before in (self.now, self.before), "the day before never stood so")
        demand(now is not None or self.now is None, "no day stands")
        is_other = self.now is not None and now["instance.txt"] != self.now["instance.txt"]
        demand(not is_other or before is not None, "the day before is gone")
        if now is not None:
            judge_changes(self.into)
        self.now, self.before = now, before

    def break_off(self):
        """A command that is ended at a drawn moment, or just when a day comes into place."""
        if self.random.randrange(2):
            came = killed_in_turn(self.words, self.into, self.random.choice([0, 0, 0.0005, 0.002, 0.01]))
        else:
            came = broken_off(self.words, self.random.choice(SIGNALS), self.random.uniform(0.0, LATEST))
        if came[0] == -signal.SIGKILL:
            judge_ended(self.into, came)
        demand("Traceback" not in came[2] or "KeyboardInterrupt" in came[2], "%r" % came[2])
        self.stands()

    def whole(self):
        """A command that ends by itself: nothing but days is left."""
        began = time.monotonic()
        status, out, errors = broken_off(self.words, signal.SIGTERM, ENDING)
        demand(status in (0, 1) and "Traceback" not in errors, "status %d, %r, %r" % (status, out, errors))
        self.stands()
        demand(set(os.listdir(self.into)) <= {"now", "before"}, "left behind: %s" % os.listdir(self.into))
        demand(len(read(self.now["instance.txt"]).rows) == len(self.table.rows), "another day at the end")
        return time.monotonic() - began

    def mistype(self):
        """A number is mistyped, and then corrected: what was planned before costs no more."""
        cost, rows = self.cost(), list(self.table.rows)
        at, column = self.random.randrange(1, len(rows)), self.random.choice([0, 2, 5])
        row = list(rows[at])
        row[column] = min(9999, 10 * row[column] + self.random.randrange(10))
        self.table.rows[at] = type(rows[at])(row)
        self.table.save()
        self.whole()
        self.table.rows = rows
        self.table.save()
        self.whole()
        demand(cost is None or self.cost() is not None and self.cost() <= cost, "%s after the correction, and %s before"
               % (self.cost(), cost))

    def cost(self):
        return standing(self.program, self.folder, os.path.join(self.into, "now"))[2]


def judge_folder(program, folder, random):
    """Days, of which some are broken off, and then one that isn't; perhaps a mistyped number and its correction."""
    days = Days(program, folder, random)
    for _ in range(random.randint(2, MOST_DAYS)):
        days.break_off()
        if random.randrange(2):
            days.table.change()
    days.whole()
    if random.randrange(3) == 0:
        days.mistype()
    return "served" if "served/plan.txt" in days.now else "all are served"


KINDS = {
    "folders": Kind("plan over changed days, ended at any moment: pages and plan of one day, the one before whole", 4,
                    program_by(judge_folder)),
}
