"""One run of `plan` that is broken off again and again: what stands in its folder is whole and right, and never dearer
than before."""
import os
import signal
import subprocess
import time

from cases.classes import CLASSES, class_words
from cases.random_texts import laid_out
from judges.kind import Kind, program_by
from judges.running import demand, got, run_check, put
from reference.instances import read
from tools.places import OUTSIDE
from vrptw import verdict_of

SIGNALS = (signal.SIGINT, signal.SIGTERM, signal.SIGHUP, signal.SIGKILL)
# How many seconds a command has that isn't broken off; when it is broken off at the latest; and how long a process may
# take to end then.
SECONDS, LATEST, ENDING = 3, 2.5, 60
PAGES = ("timetable.csv", "report.html", "drivers.html")


def rows_of(random, count):
    """Rows of an instance after a class, as words by their columns, and its capacity."""
    instance = read(laid_out(random, class_words(random, random.choice(sorted(CLASSES)), count)))
    return [row[:3] + tuple(time // 10 for time in row[3:]) for row in instance.rows], instance.capacity


def table_text(rows, names):
    lines = ["name,x,y,demand,ready,due,service"]
    lines += [",".join([name, *map(str, row)]) for name, row in zip(names, rows)]
    return ("\n".join(lines) + "\n").encode()


class Table:
    """A table of customers, of which some go and some come."""

    def __init__(self, random, path):
        self.random, self.path = random, path
        self.rows, self.capacity = rows_of(random, random.choice([5, 12, 30, 60]))
        self.names, self.come = ["depot"] + ["c%d" % i for i in range(1, len(self.rows))], 0
        self.save()

    def save(self):
        put(self.path, table_text(self.rows, self.names))

    def change(self):
        """One customer goes, or one comes that is like another."""
        at = self.random.randrange(1, len(self.rows))
        if self.random.randrange(2) and len(self.rows) > 3:
            del self.rows[at], self.names[at]
        else:
            self.rows.append(self.rows[at])
            self.come += 1
            self.names.append("new%d" % self.come)
        self.save()


def standing(program, folder, into):
    """The instance that stands, and kind, cost and bound of its texts by the check; all None where none stands."""
    text, plan, certificate = (got(os.path.join(into, name)) for name in (
        "instance.txt", "plan.txt", "certificate.txt"))
    if text is None:
        demand(plan is None and certificate is None, "texts without an instance")
        return None, None, None, None
    line, errors, _ = run_check(program, folder, text, certificate, plan)
    demand(line, "what stands isn't right: %r" % errors)
    return (text, *verdict_of(line))


def left_running(into):
    """The processes that have the folder among their words."""
    found = []
    for number in filter(str.isdigit, os.listdir("/proc")):
        try:
            with open("/proc/%s/cmdline" % number, "rb") as file:
                words = file.read()
        except OSError:
            continue
        if into.encode() in words:
            found.append(words.replace(b"\0", b" ").decode(errors="replace"))
    return found


def broken_off(words, number, after, into=None):
    """The status of a command to which a signal is sent after some time, and what it said; it may have ended before.
    With a folder the time begins when the command works there."""
    child = subprocess.Popen(words, stdin=subprocess.DEVNULL, stdout=subprocess.PIPE, stderr=subprocess.PIPE)
    try:
        until = time.monotonic() + ENDING
        while into and child.poll() is None and time.monotonic() < until:
            if os.path.isdir(into) and any(name.startswith(".plan_") for name in os.listdir(into)):
                break
            time.sleep(0.005)
        out, errors = child.communicate(timeout=after)
    except subprocess.TimeoutExpired:
        child.send_signal(number)
        try:
            out, errors = child.communicate(timeout=ENDING)
        except subprocess.TimeoutExpired:
            child.kill()
            child.communicate()
            demand(False, "signal %d didn't end it" % number)
    return child.returncode, out.decode(), errors.decode()


def demand_no_less(before, after, is_changed):
    """What stands is no worse than what stood, or it is of the changed instance."""
    if before[0] is None or before[0] != after[0]:
        demand(before[0] is None or is_changed, "another instance stands")
        return
    demand(before[2] is None or after[2] is not None and after[2] <= before[2], "a plan of %s, after %s" % (
        after[2], before[2]))
    demand(before[3] is None or after[3] is not None and after[3] >= before[3], "a bound of %s, after %s" % (
        after[3], before[3]))


def judge_ended(into, came):
    """No process is left, and no temporary text; the status says whether a plan stands, and the pages are there.
    Answers whether the command had begun when it was broken off."""
    status, out, errors = came
    until = time.monotonic() + 2
    while left_running(into) and time.monotonic() < until:
        time.sleep(0.02)
    demand(not left_running(into), "left running: %s" % left_running(into))
    if status == -signal.SIGKILL:
        return True
    there = os.listdir(into) if os.path.isdir(into) else []
    demand(not [name for name in there if name.startswith(".")], "left behind: %s" % there)
    if (status < 0 or status > 128) and not out:
        # The signal came before the work began, or else once all was said.
        demand(not errors and {-status, status - 128} & set(SIGNALS), "status %d, %r" % (status, errors))
        return False
    status = 0 if -status in SIGNALS else status
    demand(status in (0, 1), "status %d, %r" % (status, errors))
    there = os.listdir(os.path.join(into, "now")) if "now" in there else []
    demand("Traceback" not in errors and (out or status), "%r" % errors)
    has_plan = "plan.txt" in there
    demand(status or has_plan and set(PAGES) <= set(there), "status %d, and there are %s" % (status, there))
    return True


def judge_break(program, folder, random):
    """Some commands on one folder, broken off at drawn times, now and then with other customers; the last one ends by
    itself."""
    table, into = Table(random, os.path.join(folder, "customers.csv")), os.path.join(folder, "monday")
    words = [os.path.join(OUTSIDE, "plan"), table.path, "--into", into, "--seconds", str(SECONDS), "--program", program,
             "--vehicles", "25", "--capacity", str(table.capacity), "--searchers", "1", "--bounders", "1", "--drivers"]
    now_there = os.path.join(into, "now")
    before, breaks, is_changed = standing(program, folder, now_there), 0, False
    for _ in range(random.randint(2, 4)):
        number, after = random.choice(SIGNALS[:3] if is_changed else SIGNALS), random.uniform(0.05, LATEST)
        has_start = random.randrange(8) > 0
        came = broken_off(words, number, after, into if has_start else None)
        breaks += judge_ended(into, came)
        now = standing(program, folder, now_there)
        demand_no_less(before, now, is_changed)
        before = now
        if random.randrange(3) == 0:
            table.change()
            is_changed = True
    status, out, errors = broken_off(words, signal.SIGTERM, ENDING)
    now = standing(program, folder, now_there)
    demand_no_less(before, now, is_changed)
    judge_ended(into, (status, out, errors))
    demand(status == 0 and now[2] is not None, "at the end: status %d, %r, %r" % (status, out, errors))
    demand(len(read(now[0]).rows) == len(table.rows), "another instance at the end")
    return "%s after %d breaks" % (now[1], breaks)


KINDS = {
    "breaks": Kind("plan, broken off at drawn times: texts that are right, never dearer than before", 4,
                   program_by(judge_break)),
}
