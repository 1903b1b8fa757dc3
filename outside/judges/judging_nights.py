"""One run of `convert` on a table whose depot is open over midnight: by the minutes of its hours, service may begin in
the instance where the table's window allows it, and where it may not it is noted."""
import os
import re

from judges.judging_layouts import demand_notes, tool
from judges.judging_times import DAY, clock
from judges.kind import Kind, tools_by
from judges.running import demand, got, put
from reference.instances import read

# The line of the first customer, below the heading and the depot.
FIRST_LINE = 3


def window_drawn(random, opens, shuts):
    """Two times of the day, or None where a field is empty; near the depot's hours, anywhere, or the whole day."""
    near = [(opens + random.randint(-90, shuts + DAY - opens + 90)) % DAY for _ in "ab"]
    return random.choice([near, near, sorted(near), [random.randrange(DAY), random.randrange(DAY)], [0, DAY - 1],
                          [0, DAY], [None, near[0]], [near[0], None], [None, None]])


def is_allowed(window, minute):
    """Whether a table's window has a minute of the day in it; one that ends before it begins goes over midnight."""
    (ready, due), at = window, minute % DAY
    return any(ready <= moment <= due + (DAY if due < ready else 0) for moment in (at, at + DAY))


def judge_nights(folder, random):
    """A table of customers with windows by times of the day, and a depot's that ends on the next day."""
    opens, shuts = random.randint(12 * 60, DAY - 1), random.randint(0, 10 * 60)
    windows = [window_drawn(random, opens, shuts) for _ in range(random.randint(1, 8))]
    words = [[clock(random, at) if at is not None and at < DAY else "" if at is None else "24:00" for at in window]
             for window in [(opens, shuts), *windows]]
    source, target = os.path.join(folder, "table.csv"), os.path.join(folder, "instance.txt")
    put(source, "".join("%s\n" % ";".join(line) for line in [
        ["x", "y", "demand", "ready", "due", "service"],
        *([str(i), "0", str(min(i, 1)), *pair, "0"] for i, pair in enumerate(words))]).encode())
    came = tool("convert", source, target, "--vehicles", "8", "--capacity", "8")
    out, errors, status = came
    demand((out, status) == (b"", 0), "convert: status %d, %r" % (status, errors))
    demand_notes("convert", errors)
    demand("goes over midnight" in errors, "the night isn't told: %r" % errors)
    instance, lost = read(got(target)), []
    hours = range(opens, shuts + DAY + 1)
    demand((instance.ready(0), instance.due(0)) == (10 * opens, 10 * (shuts + DAY)), "other hours of the depot")
    for i, window in enumerate(windows, 1):
        right = [own if at is None else at for at, own in zip(window, (opens, shuts))]
        there = [minute for minute in hours if is_allowed(right, minute)]
        here = [minute for minute in hours if instance.ready(i) <= 10 * minute <= instance.due(i)]
        demand(set(here) <= set(there), "%r: %d is allowed, and isn't in the table" % (words[i], min(
            set(here) - set(there), default=0)))
        lost += [FIRST_LINE + i - 1] if here != there else []
    told = re.search(r"on both days are those of the first day alone: ([0-9]+), the first in line ([0-9]+)\n", errors)
    told = (int(told[1]), int(told[2])) if told else (0, 0)
    demand(told == (len(lost), lost[0] if lost else 0), "lines %r lose a part: %r" % (lost, errors))
    return "a window on both days" if lost else "as it is meant"


KINDS = {
    "nights": Kind("a table with a depot open over midnight, by convert: the minutes that windows allow", 30,
                   tools_by(judge_nights)),
}
