"""One run on two days of customers of equal names: who `carry` and `changes.csv` take for whom, by a rule written anew
and by the drawing, which knows who is who; the numbers of vehicles, by all numberings; and what `judge` makes of the
project's own timetable."""
import csv
import io
import os
import re
from fractions import Fraction
from itertools import permutations

from cases.two_days import KNOWN, TwoDays, instance_of, later_routes, routes_of, shift_of
from judges.judging_changes import rows_of
from judges.judging_layouts import text_of, tool
from judges.judging_moved import clock, cut
from judges.judging_tables import plan_text
from judges.kind import Kind, program_by
from judges.running import demand, got, put
from reference.instances import is_plan, plan_cost, walk_times
from reference.texts import read_solution
from tools.changing import Changes
from tools.names import Names, table_of
from tools.past import past_of
from tools.timing import EARLY, separated
from tools.units import Units
from tools.vehicle_numbers import in_order, ordered

# How often `plan` runs: once in so many runs.
SELDOM = 50
SPEED = Fraction(30)


class Side:
    """What a table says of a day's customers, by their places in it from 1 on."""

    def __init__(self, drawn, at, is_comparable):
        day = drawn.days[at]
        self.size = len(day)
        self.name = dict(enumerate((drawn.called(at, one) for one in day), 1))
        self.place = dict(enumerate((one.place if is_comparable else "" for one in day), 1))
        self.door = dict(enumerate((one.door if drawn.has_address else "" for one in day), 1))
        self.asked = dict(enumerate((one.asked for one in day), 1))
        self.number = dict(enumerate((one.number for one in day), 1))

    def alone(self, parts, i, others=None):
        """Whether nobody else here has the same of all these parts, and each of them is told."""
        own = [part[i] for part in parts]
        return all(own) and all(j == i or [part[j] for part in parts] != own for j in others or range(1, self.size + 1))


def pairs_by(one, two, parts):
    """Who alone has the same of all parts as one alone of the other day."""
    return {i: j for i in range(1, one.size + 1) for j in range(1, two.size + 1)
            if all(getattr(one, part)[i] == getattr(two, part)[j] for part in parts)
            and one.alone([getattr(one, part) for part in parts], i)
            and two.alone([getattr(two, part) for part in parts], j)}


def settled(one, two):
    return {**pairs_by(one, two, ("name", "door")), **pairs_by(one, two, ("name", "place"))}


def has_numbers(one, two):
    """Whether a column has numbers."""
    fields = [[side.number[i] for i in range(1, side.size + 1)] for side in (one, two)]
    if any("" in own or len(set(own)) < len(own) for own in fields):
        return False
    if all(own == [str(row) for row in range(1, len(own) + 1)] for own in fields):
        return False
    pairs = pairs_by(one, two, ("number",))
    agreeing = [i for i, j in pairs.items() if any(getattr(one, part)[i] and getattr(one, part)[i] == getattr(
        two, part)[j] for part in ("name", "place", "door"))]
    keep = all(one.number[i] == two.number[j] for i, j in settled(one, two).items())
    return bool(pairs) and len(agreeing) * 2 >= len(pairs) and keep


def add(pairs, more):
    """Adds pairs of whom nobody is in one yet."""
    for i, j in more.items():
        if i not in pairs and j not in pairs.values():
            pairs[i] = j


def unchanged(one, two, pairs, parts, is_one=lambda i, side: True):
    """Pairs within groups of which nobody is in one, by what is asked of each, where that is the same on both days."""
    rest = [[i for i in range(1, side.size + 1) if i not in known and is_one(i, side)]
            for side, known in ((one, set(pairs)), (two, set(pairs.values())))]
    for i in rest[0]:
        own = [getattr(one, part)[i] for part in parts]
        groups = [[k for k in left if [getattr(side, part)[k] for part in parts] == own]
                  for side, left in zip((one, two), rest)]
        asked = [[side.asked[k] for k in group] for side, group in zip((one, two), groups)]
        if all(own) and sorted(asked[0]) == sorted(asked[1]) and len(set(asked[0])) == len(asked[0]):
            yield i, next(k for k in groups[1] if two.asked[k] == one.asked[i])


def rule(one, two, heading, has_same_units):
    """Who is whom; and who of each day is perhaps gone or new."""
    is_told = heading is not None and has_numbers(one, two)
    if is_told and heading in KNOWN:
        return pairs_by(one, two, ("number",)), [], []
    pairs = pairs_by(one, two, ("name", "place"))
    if has_same_units:
        add(pairs, dict(unchanged(one, two, pairs, ("name", "place"))))
    add(pairs, pairs_by(one, two, ("name", "door")))
    if is_told and settled(one, two):
        add(pairs, pairs_by(one, two, ("name", "number")))
    add(pairs, pairs_by(one, two, ("name",)))
    nameless(one, two, pairs, has_same_units)
    left = [[i for i in range(1, side.size + 1) if i not in known]
            for side, known in ((one, pairs), (two, pairs.values()))]

    def may_be(i, j):
        by = ("name",) if one.name[i] and two.name[j] else ("place",)
        return all(getattr(one, part)[i] and getattr(one, part)[i] == getattr(two, part)[j] for part in by)
    return (pairs, [i for i in left[0] if any(may_be(i, j) for j in left[1])],
            [j for j in left[1] if any(may_be(i, j) for i in left[0])])


def nameless(one, two, pairs, has_same_units):
    """Adds those whom the place tells where one of both has no name."""
    left = [[i for i in range(1, side.size + 1) if i not in known]
            for side, known in ((one, set(pairs)), (two, set(pairs.values())))]
    bare = {side.place[i] for side, own in zip((one, two), left) for i in own if not side.name[i]}
    add(pairs, {i: j for i in left[0] for j in left[1] if one.place[i] == two.place[j] and one.place[i] in bare
                and one.alone([one.place], i, left[0]) and two.alone([two.place], j, left[1])})
    if has_same_units:
        add(pairs, dict(unchanged(one, two, pairs, ("place",), lambda i, side: side.place[i] in bare)))


class Tables:
    """Instances and tables of names of both days, in units of their own, in degrees or on a map."""

    def __init__(self, drawn, random):
        self.drawn, is_degrees = drawn, random.randrange(3) == 0
        clocks = random.randrange(2)
        self.units = [Units(random.choice([1, 1, 10]), clocks, SPEED if is_degrees else None) for _ in range(2)]
        self.instances, self.names = [], []
        for at, (day, units) in enumerate(zip(drawn.days, self.units)):
            shift = [random.randint(20, 60) for _ in range(2)] if is_degrees else shift_of(day)
            self.instances.append(instance_of(day, units.scale, shift))
            self.names.append(self.names_of(at, units, is_degrees))

    def names_of(self, at, units, is_degrees):
        drawn = self.drawn
        headings = ["address"] * drawn.has_address + [drawn.heading] * bool(drawn.heading) + ["lat", "lon"] * is_degrees
        further = [[""] * (drawn.has_address + bool(drawn.heading)) + ["48.01", "11.01"] * is_degrees]
        for one in drawn.days[at]:
            degrees = ["%.3f" % (48 + one.place[1] / 1000), "%.3f" % (11 + one.place[0] / 1000)]
            further.append([one.door] * drawn.has_address + [one.number] * bool(drawn.heading) + degrees * is_degrees)
        called = ["depot"] + [drawn.called(at, one) or str(i) for i, one in enumerate(drawn.days[at], 1)]
        return Names(called, headings, further, units)

    def put(self, folder, routes):
        """Writes both days, each in a folder; answers these."""
        paths = [os.path.join(folder, name) for name in ("before", "now")]
        for path, instance, names, own in zip(paths, self.instances, self.names, routes):
            os.mkdir(path)
            put(os.path.join(path, "instance.txt"), text_of(instance))
            put(os.path.join(path, "names.csv"), table_of(
                names, names.headings, names.further, names.units).encode())
            put(os.path.join(path, "plan.txt"), plan_text(instance, own))
        return paths


def begins(instance, routes, units):
    """By customer the vehicle, the begin of service as it is shown, and its number."""
    found = {}
    for vehicle, route in enumerate(routes, 1):
        for i, begin in zip(route, walk_times(instance, route)[0]):
            begin = cut(begin, units)
            found[i] = str(vehicle), clock(begin, units), begin / (10 * units.scale)
    return found


def right_rows(drawn, known, served, has_clock):
    """The rows of the changes, as they have to be."""
    pairs, perhaps_gone, perhaps_new = known
    back, rows = {j: i for i, j in pairs.items()}, []

    def row(at, i, told, before, now):
        one = drawn.days[at][i - 1]
        return [drawn.called(at, one) or "customer %d" % i, told, before[0], now[0], before[1], now[1],
                one.door if drawn.has_address else ""]
    for j in range(1, len(drawn.days[1]) + 1):
        before, now = served[0][back[j]] if j in back else ("", ""), served[1][j]
        told = []
        if j not in back:
            told = ["perhaps new" if j in perhaps_new else "new"]
        else:
            far = round(now[2] - before[2], 1)
            told += ["on another vehicle"] if now[0] != before[0] else []
            told += ["%g %s %s" % (abs(far), "minutes" if has_clock else "units", "later" if far > 0 else "earlier")
                     ] if abs(now[2] - before[2]) > 10 else []
        rows += [row(1, j, "; ".join(told), before, now)] if told else []
    return rows + [row(0, i, "perhaps gone" if i in perhaps_gone else "gone", served[0][i], ("", ""))
                   for i in range(1, len(drawn.days[0]) + 1) if i not in pairs]


def demand_most_stay(vehicles, pairs, what):
    """No other numbering of the vehicles of now has more customers in one of the same number as before."""
    before, now = vehicles
    stay = sum(before[i] == now[j] for i, j in pairs.items() if i in before and j in now)
    numbers = sorted(set(now.values()))
    demand(numbers == list(range(1, len(numbers) + 1)), "%s: vehicles %r" % (what, numbers))
    for other in permutations(numbers):
        most = sum(before[i] == other[now[j] - 1] for i, j in pairs.items() if i in before and j in now)
        demand(most <= stay, "%s: %d keep their vehicle's number, and by %r %d do" % (what, stay, other, most))


def judge_numbers(random):
    """Drawn routes of customers who had vehicles before, in which the most in common soon stand in each other's way."""
    count = random.randint(2, 5)
    before = {i: random.randint(1, count + 1) for i in range(1, random.randint(3, 20)) if random.randrange(8)}
    routes = [[i + 100 for i in range(count)]] + [[] for _ in range(count)]
    for i in before:
        random.choice(routes[1:]).append(i)
    routes = [route for route in routes if route]
    found = in_order(random.sample(routes, len(routes)), before)
    demand(sorted(found) == sorted(routes), "%r of %r" % (found, routes))
    now = {i: number for number, route in enumerate(found, 1) for i in route}
    demand_most_stay([before, now], {i: i for i in now}, "numbers")


def judge_told(tables, paths, routes, known, random):
    """The changes from one prepared day to another, whose routes come in any order."""
    drawn, instance, names = tables.drawn, tables.instances[1], tables.names[1]
    past = past_of(paths[0])
    found = past.carried(instance, names)
    demand(found is not None or not known[0], "nothing tells who is who")
    if found is None:
        return
    before = past.vehicles(instance, names)
    orders = [read_solution(ordered(plan_text(instance, random.sample(routes[1], len(routes[1]))), before))[0]
              for _ in range(2)]
    demand(not known[0] or orders[0] == orders[1], "two orders come to two numberings: %r" % orders)
    served = [begins(*one) for one in zip(tables.instances, (routes[0], orders[0]), tables.units)]
    text = Changes(past, instance, names, orders[0], EARLY).table()
    own = rows_of(text.split("\n\n")[0])[1:]
    right = right_rows(drawn, known, served, tables.units[1].clock)
    demand(own == right, "changes %r, and %r are right" % (own, right))
    demand_most_stay([{i: int(at[0]) for i, at in one.items()} for one in served], known[0], "changes")


def told_list(errors, words):
    """What a note tells of some customers, or none."""
    found = re.search(r"note: %s: (.*)\n" % words, errors)
    return sorted(found[1].split(", ")) if found else []


def judge_carry(folder, tables, paths, routes, known):
    """The plan of the first day carried to the second one: notes, and vehicles that keep their numbers. Where tables
    of names tell nothing, it goes without them."""
    drawn, is_bare = tables.drawn, not any(
        names.headings or names.has_names() or names.units.scale > 1 for names in tables.names)
    first, plan, second, *both = (os.path.join(path, name) for path, name in zip(
        [paths[0], paths[0], paths[1], *paths], ["instance.txt", "plan.txt", "instance.txt", "names.csv", "names.csv"]))
    out, errors, status = tool("carry", first, plan, second, *(
        [] if is_bare else ["--names", both[0], "--changed-names", both[1]]))
    demand(status == 0, "carry: %r" % errors)
    found, cost = read_solution(out)
    demand(is_plan(tables.instances[1], found) and cost == plan_cost(tables.instances[1], found), "%r: no plan" % out)
    pairs, perhaps_gone, perhaps_new = known
    new = [j for j in range(1, len(drawn.days[1]) + 1) if j not in pairs.values()]
    gone = [i for i in range(1, len(drawn.days[0]) + 1) if i not in pairs]
    for words, at, some in (("customers that are gone", 0, [i for i in gone if i not in perhaps_gone]),
                            ("new customers", 1, [j for j in new if j not in perhaps_new]),
                            ("customers that are perhaps gone", 0, perhaps_gone),
                            ("customers that are perhaps new", 1, perhaps_new)):
        names, further = tables.names[at], ", by their numbers before" if is_bare and not at else ""
        own = told_list(errors, words + further)
        told = map(str, some) if is_bare else (told_of(names, i, "perhaps" in words) for i in some)
        right = sorted(", ".join(told).split(", ")) if some else []
        demand(own == right, "%s: %r, and %r is right" % (words, own, right))
    before, now = ({i: k for k, route in enumerate(one, 1) for i in route} for one in (routes[0], found))
    demand_most_stay([before, now], pairs, "carry")


def told_of(names, i, has_place):
    """How a note tells a customer: with the place where the name doesn't tell."""
    called = names[i] if names[i] != str(i) else "customer %d" % i
    row = dict(zip(names.headings, names.further[i]))
    where = row.get("address") or ("%g, %g" % (float(row["lat"]), float(row["lon"])) if "lat" in row
                                   else "number %d" % i if called == names[i] else "")
    has_place = where and (has_place or list(names).count(names[i]) > 1)
    return "%s (%s)" % (called, where) if has_place else called


def judge_own(folder, tables, paths, routes, random):
    """The project's own timetable goes to `judge`, whole or without some columns: each line is the stop that it was, or
    it is told that two of one name can't be parted."""
    instance, names, units = tables.instances[0], tables.names[0], tables.units[0]
    rows = rows_of(separated(instance, routes[0], names, EARLY).split("\n\n")[0])
    lost = random.choice([[], [], ["stop"], ["stop", "address"], ["stop", "begin"],
                          ["stop", "address", tables.drawn.heading]])
    kept = [place for place, heading in enumerate(rows[0]) if heading not in lost]
    found, plan, back = io.StringIO(), os.path.join(folder, "own.csv"), os.path.join(folder, "back")
    csv.writer(found).writerows([[row[place] for place in kept] for row in rows])
    put(plan, found.getvalue().encode())
    out, errors, status = tool("judge", os.path.join(paths[0], "instance.txt"), plan, "--names", os.path.join(
        paths[0], "names.csv"), "-o", back)
    if status == 0:
        demand(got(back) == plan_text(instance, routes[0]), "judge: %r of %r" % (got(back), routes[0]))
        return
    demand(status == 1 and "stop" in lost and ", the name of " in errors, "judge: %d, %r" % (status, errors))
    where = begins(instance, routes[0], units)

    def is_like(i, j):
        """Whether a line of one may be of another; an empty field tells nothing."""
        shown = [(names[k], *(dict(zip(names.headings, names.further[k])).get(heading) for heading in (
            "address", tables.drawn.heading) if heading not in lost)) for k in (i, j)]
        begin = 10 * units.scale * where[i][2]
        in_time = "begin" in lost or cut(instance.ready(j), units) <= begin <= cut(instance.due(j), units)
        return in_time and all(not own or own == other for own, other in zip(*shown))
    numbers = range(1, instance.count + 1)
    demand(any(i != j and is_like(i, j) for i in numbers for j in numbers), "judge: %r" % errors)


def judge_planned(program, folder, drawn, random):
    """Both tables to `plan`, one after the other, as a spreadsheet has them: the changes between both timetables."""
    into, known = os.path.join(folder, "week"), None
    for at, day in enumerate(drawn.days):
        heading = ["name"] * (not drawn.is_nameless[at]) + ["address"] * drawn.has_address + [
            drawn.heading] * bool(drawn.heading) + ["x", "y", "demand", "ready", "due", "service"]
        rows = [heading, ["depot"] * (not drawn.is_nameless[at]) + [""] * (drawn.has_address + bool(drawn.heading))
                + ["10", "10", "", "0", "9000", ""]]
        for one in day:
            rows.append([one.name] * (not drawn.is_nameless[at]) + [one.door] * drawn.has_address + [
                one.number] * bool(drawn.heading) + [*map(str, one.place), *map(str, one.asked)])
        found = io.StringIO()
        csv.writer(found).writerows(rows)
        put(os.path.join(folder, "day%d.csv" % at), found.getvalue().encode())
        whole = max(sum(one.asked[0] for one in day) * random.choice([40, 70, 100]) // 100, 40)
        out, errors, status = tool("plan", os.path.join(folder, "day%d.csv" % at), "--into", into, "--vehicles", "9",
                                   "--capacity", str(whole), "--seconds", "1", "--program", program,
                                   "--searchers", "1", "--bounders", "1")
        demand(status == 0, "plan: %r, %r" % (out, errors))
    # Both days of one instance: nothing is carried.
    if not os.path.isdir(os.path.join(into, "before")):
        return "plan: the same day"
    served = []
    for path in ("before", "now"):
        rows = rows_of(got(os.path.join(into, path, "timetable.csv")).decode().split("\n\n")[0])[1:]
        served.append({int(row[1]): (row[0], row[4], float(row[4])) for row in rows if row[1] != "0"})
    known = rule(*(Side(drawn, at, True) for at in (0, 1)), drawn.heading, True)
    own = rows_of(got(os.path.join(into, "now", "changes.csv")).decode().split("\n\n")[0])[1:]
    right = right_rows(drawn, known, served, False)
    demand(own == right, "changes %r, and %r are right" % (own, right))
    demand_most_stay([{i: int(at[0]) for i, at in one.items()} for one in served], known[0], "plan")
    return "plan"


def judge_names(program, folder, random):
    """Two days; now and then planned, else prepared."""
    drawn = TwoDays(random)
    tables, truth = Tables(drawn, random), drawn.truth()
    routes = [routes_of(random, drawn.days[0])]
    routes.append(later_routes(random, routes[0], drawn.days[1], truth))
    paths = tables.put(folder, routes)
    same = tables.units[0].words() == tables.units[1].words()
    known = rule(*(Side(drawn, at, True) for at in (0, 1)), drawn.heading, same)
    strangers = [(i, j) for i, j in known[0].items() if truth.get(i) != j]
    demand(not (drawn.is_clean and strangers), "by the rule strangers are the same: %r" % strangers)
    if random.randrange(SELDOM) == 0:
        return judge_planned(program, folder, drawn, random)
    judge_numbers(random)
    judge_told(tables, paths, routes, known, random)
    if random.randrange(2):
        judge_carry(folder, tables, paths, routes, known)
    else:
        judge_own(folder, tables, paths, routes, random)
    if strangers:
        return "strangers who look the same"
    return "all are known" if not known[1] + known[2] else "some are told as unclear"


KINDS = {
    "equal_names": Kind("two days with equal names and places, by carry, plan's changes and judge: who is who, and the "
                        "numbers of vehicles", 40, program_by(judge_names)),
}
