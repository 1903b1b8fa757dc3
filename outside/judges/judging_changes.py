"""What `plan` says that changed from the day before, by the timetables of both days alone."""
import csv
import io
import os

from judges.running import demand, got

# From how much earlier or later on it is told.
MINUTES = 10


def rows_of(text):
    return list(csv.reader(io.StringIO(text)))


def timed(path):
    """By the name of a customer the vehicle and when its service begins, of the plan of all or of some."""
    text = got(os.path.join(path, "timetable.csv")) or got(os.path.join(path, "served", "timetable.csv"))
    if text is None:
        return None
    rows = rows_of(text.decode().split("\n\n")[0])
    return {row[rows[0].index("name")]: (row[0], float(row[4])) for row in rows[1:] if row[1] != "0"}


def named(path):
    """The names of a day's customers."""
    rows = rows_of(got(os.path.join(path, "names.csv")).decode())
    return {row[1] for row in rows[1:] if row[0] != "0"}


def shift_told(before, now):
    """How much earlier or later somebody is served, as it is told."""
    far = round(now - before, 1)
    return [] if abs(far) <= MINUTES else ["%g units %s" % (abs(far), "later" if far > 0 else "earlier")]


def demand_numbers(before, now):
    """No exchange of numbers among the vehicles of now, in a row of any length, has more customers keep their vehicle's
    number."""
    numbers = sorted({int(at[0]) for at in now.values()})
    demand(numbers == list(range(1, len(numbers) + 1)), "vehicles %r" % numbers)
    stay = {}
    for name in before.keys() & now.keys():
        pair = int(now[name][0]), int(before[name][0])
        stay[pair] = stay.get(pair, 0) + 1
    # By two vehicles how many more keep it where the first gets the number of the second, and all between give way.
    more = {(one, two): stay.get((one, two), 0) - stay.get((one, one), 0) for one in numbers for two in numbers}
    for between in numbers:
        for one in numbers:
            for two in numbers:
                more[one, two] = max(more[one, two], more[one, between] + more[between, two])
    demand(all(more[one, one] <= 0 for one in numbers), "more customers could keep the number of their vehicle")


def right_change(name, days):
    """What has to be told of somebody."""
    (names_before, before), (names, now) = days
    if name not in names:
        return ["gone"]
    if name not in names_before:
        return ["new"] + ([] if name in now else ["left out"])
    if name not in before:
        return ["served again"] if name in now else []
    if name not in now:
        return ["left out"]
    is_other = before[name][0] != now[name][0]
    return (["on another vehicle"] if is_other else []) + shift_told(before[name][1], now[name][1])


def judge_changes(into):
    """The changes told are those of the timetables of both days; without a day before none are."""
    now, before = (os.path.join(into, name) for name in ("now", "before"))
    text = got(os.path.join(now, "changes.csv"))
    if not os.path.isdir(before) or timed(before) is None or timed(now) is None:
        demand(text is None, "changes from no day")
        return
    told, sums = (rows_of(part) for part in text.decode().split("\n\n"))
    own = {row[0]: row[1].split("; ") for row in told[1:]}
    days = [(named(path), timed(path)) for path in (before, now)]
    for name in days[0][0] | days[1][0]:
        right = right_change(name, days)
        demand(own.get(name, []) == right, "%s: %r, and %r is right" % (name, own.get(name), right))
    demand_numbers(days[0][1], days[1][1])
    demand(sums[2][1:] == [str(len(at)) for _, at in days], "served before and now: %r" % sums)
