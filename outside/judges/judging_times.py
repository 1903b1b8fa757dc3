"""One run of `convert` on a table with what spreadsheets have, and of `timetable` on what came of it: times of the day,
decimals, degrees, stops without demand, empty fields, other codes of signs, other headings."""
import csv
import math
import os
import re

from judges.judging_layouts import demand_notes, tool
from judges.kind import Kind, tools_by
from judges.running import demand, got, put
from judges.judging_tables import plan_text
from reference.instances import read, route_cost, walk_times

DAY = 24 * 60
# How far off kilometres by the arc of a cosine may be.
ANGLE = 2e-4
POWERS = (1, 10, 100, 1000, 10_000)
HEADINGS = {"name": "Kunde", "address": "Adresse", "x": "Rechts", "y": "Hoch", "demand": "Menge", "ready": "von",
            "due": "bis", "service": "Dauer", "lat": "Breite", "lon": "Länge"}
NAMES = ["Café", "Müller & Söhne", "School", "Straße 5, Hof", "Ålesund"]
CODES = ("utf-8", "utf-8-sig", "utf-16", "cp1252")


def clock(random, minutes):
    """A time of the day in a spelling that spreadsheets have."""
    hours, rest = divmod(minutes % DAY, 60)
    half = "%d:%02d%s" % ((hours + 11) % 12 + 1, rest, random.choice([" AM", "am", " a.m."]) if hours < 12 else
                          random.choice([" PM", "pm", " P.M."]))
    return random.choice(["%d:%02d" % (hours, rest), "%02d:%02d" % (hours, rest), "%02d:%02d:00" % (hours, rest), half])


class Day:
    """What is drawn: the rows as they are meant, and the table in which they stand."""

    def __init__(self, random):
        self.random, self.count = random, random.randint(1, 10)
        self.is_late = random.randrange(3) == 0
        self.opens = random.randint(17 * 60, 22 * 60) if self.is_late else random.randint(0, 8 * 60)
        self.shuts = self.opens + (random.randint(8 * 60, 12 * 60) if self.is_late else random.randint(600, 900))
        self.has_degrees, self.digits = random.randrange(3) == 0, random.choice([0, 0, 1, 2, 4])
        # How far places may be apart: as far as the limits allow, or an hour.
        self.far = random.choice([10_000, min(10_000, 60 * 10 ** self.digits)])
        self.centre, self.speed = (random.uniform(-60, 60), random.uniform(-179, 179)), random.choice([20, 30, 50])
        self.rows = [self.row(i) for i in range(self.count + 1)]
        self.spelled_service = random.choice(["%d", "0:%02d", "%d min"])

    def row(self, i):
        """Name, address, place, demand in halves, window or None, service."""
        random = self.random
        if self.has_degrees:
            place = tuple(round(at + random.uniform(-0.05, 0.05), 5) for at in self.centre)
        else:
            place = tuple(random.randint(0, self.far) for _ in "xy")
        ready = random.randint(self.opens, self.shuts)
        window = (ready, random.randint(ready, self.shuts)) if i and random.randrange(4) else None
        return (random.choice(NAMES) if i else "Depot", "Weg %d" % i, place,
                2 * random.choice([0, 1, 2, 5]) + random.choice([0, 0, self.has_halves()]) if i else 0, window,
                random.randint(0, 15) if i else 0)

    def has_halves(self):
        return int(self.digits == 2)

    def cells(self, row, is_depot):
        """The words of a row."""
        random, (name, address, place, halves, window, service) = self.random, row
        if self.has_degrees:
            words = ["%.5f" % at for at in place]
        else:
            words = ["%d" % at if not self.digits else "%d.%0*d" % (
                *divmod(at, 10 ** self.digits)[:1], self.digits, at % 10 ** self.digits) for at in place]
        times = [clock(random, at) for at in (self.opens, self.shuts) if is_depot] or (
            [clock(random, at) for at in window] if window else ["", ""])
        demand_word = "%d" % (halves // 2) if halves % 2 == 0 else "%d.5" % (halves // 2)
        return [name, address, *words, random.choice(["", "0"]) if not halves else demand_word, *times,
                self.spelled_service % service if not is_depot else random.choice(["", "0"])]

    def columns(self):
        return ["name", "address", *(["lat", "lon"] if self.has_degrees else ["x", "y"]), "demand", "ready", "due",
                "service"]


def table_of(random, day, folder):
    """Writes the table; answers its path and the options by which its headings are known."""
    columns = day.columns()
    renamed = {column: HEADINGS[column] for column in columns if random.randrange(3) == 0}
    lines = [";".join(renamed.get(column, column) for column in columns)]
    for i, row in enumerate(day.rows):
        lines.append(";".join(day.cells(row, i == 0)))
    code, path = random.choice(CODES), os.path.join(folder, "table.csv")
    put(path, "\r\n".join(lines + [""]).encode(code))
    options = [word for column, told in renamed.items() for word in ("--column", "%s=%s" % (column, told))]
    return path, options, code


def right_scale(day):
    """The least power of ten that makes the places whole, or the finest that the limits hold."""
    places, one = [at for row in day.rows for at in row[2]], 10 ** day.digits
    held = [scale for scale in POWERS if max(places) * scale <= 10_000 * one and day.shuts * scale <= 10 ** 6]
    return next((scale for scale in held if all(at * scale % one == 0 for at in places)), held[-1])


def demands_right(day, capacity):
    """Demands and the capacity as they have to be: whole, and 1 where a stop has none, which the capacity has room
    for beside any other load."""
    tens = 10 if any(row[3] % 2 for row in day.rows) else 1
    visits = sum(not row[3] for row in day.rows[1:])
    factor = visits + 1 if visits else 1
    demands = [0] + [row[3] * tens // 2 * factor or 1 for row in day.rows[1:]]
    return demands, capacity * tens * factor + visits, tens, factor


def demand_instance(day, instance, capacity, scale):
    """The instance has the demands, windows and services that are meant, at its scale."""
    demands, room, _, _ = demands_right(day, capacity)
    demand(instance.capacity == room, "capacity %d, and %d is right" % (instance.capacity, room))
    for i, row in enumerate(day.rows):
        window = row[4] or (day.opens, day.shuts)
        right = (demands[i], *(10 * scale * at for at in window), 10 * scale * row[5])
        demand(instance.rows[i][2:] == right, "row %d: %r, and %r is right" % (i, instance.rows[i][2:], right))


def on_globe(first, second):
    """Kilometres between two places, by the angle between them."""
    (lat, lon), (to_lat, to_lon) = (map(math.radians, place) for place in (first, second))
    angle = math.sin(lat) * math.sin(to_lat) + math.cos(lat) * math.cos(to_lat) * math.cos(lon - to_lon)
    return 6371.0088 * math.acos(max(-1.0, min(1.0, angle)))


def demand_places(day, instance, scale, errors):
    """The places are the table's, or as far apart as on the globe, but for what is told, at most half a percent, and
    the rounding of two places with the cut to a tenth."""
    if not day.has_degrees:
        for i, row in enumerate(day.rows):
            right = [at * scale / 10 ** day.digits for at in row[2]]
            demand(all(abs(at - there) <= 0.5 for at, there in zip(right, instance.rows[i])),
                   "place %d: %r, and %r is right" % (i, instance.rows[i][:2], right))
        return
    tenths, told = 10 * scale * 60 * 1.3 / day.speed, re.search(r"at most ([0-9.]+) km off", errors)
    pairs = [(i, j, on_globe(day.rows[i][2], day.rows[j][2])) for i in range(day.count + 1) for j in range(i)]
    demand(told and float(told[1]) <= 0.005 * max(far for _, _, far in pairs) + ANGLE, "how far off: %r" % errors)
    for i, j, right in pairs:
        off = abs(instance.arc[i][j] - tenths * right)
        demand(off <= tenths * (float(told[1]) + ANGLE) + 10 * math.sqrt(2) + 1, "%d to %d: %d, and %.1f is right" % (
            i, j, instance.arc[i][j], tenths * right))


def shown(minutes):
    days, rest = divmod(minutes, DAY)
    return "%02d:%02d%s" % (*divmod(rest, 60), " +%d" % days if days else "")


def demand_timetable(day, instance, scale, out, routes):
    """Arrivals, begins and loads of the timetable are those of the walks, cut to minutes, with names and addresses."""
    rows = list(csv.DictReader(out.split("\n\n")[0].splitlines()))
    _, _, tens, factor = demands_right(day, 1)
    at = iter(rows)
    for route in routes:
        begins, finish = walk_times(instance, route)
        load = 0
        for i, begin in zip(route + [0], begins + [finish]):
            row, load = next(at), load + instance.demand(i)
            whole = load // factor
            right = {"stop": str(i), "begin": shown(begin // (10 * scale)), "name": day.rows[i][0],
                     "address": day.rows[i][1],
                     "load": str(whole) if tens == 1 else "%d.%d" % divmod(whole, 10)}
            told = {key: row[key] for key in right}
            demand(told == right, "%r, and %r is right" % (told, right))
    if day.has_degrees:
        demand_kilometres(day, instance, scale, out, routes)


def demand_kilometres(day, instance, scale, out, routes):
    """Distances are kilometres of road, by the minutes of the instance at the speed."""
    for row, route in zip(csv.DictReader(out.split("\n\n")[1].splitlines()), routes):
        right = route_cost(instance, route) * day.speed / (600 * scale)
        demand(abs(float(row["distance"]) - right) <= 0.0501, "%r, and %.3f km is right" % (row, right))


def demand_dialect(plain, target, plan, names):
    """By itself the timetable is spelled as the sheet, which had semicolons: the same fields, numbers with commas."""
    out, errors, status = tool("timetable", target, plan, "--csv", "--names", names, "--depart", "early")
    demand(status == 0 and out.startswith("\ufeff".encode()), "timetable: %r, status %d" % (errors, status))
    found = list(csv.reader(out.decode("utf-8-sig").splitlines(), delimiter=";"))
    right = list(csv.reader(plain.splitlines()))
    for here, there in zip(found, right):
        fits = [own == other or own == re.sub(r"^(-?[0-9]+)\.([0-9]+)$", r"\1,\2", other) and place < 9
                for place, (own, other) in enumerate(zip(here, there))]
        demand(len(here) == len(there) and all(fits), "%r, and %r is right" % (here, there))
        demand(not any("." in own and re.match(r"[0-9.]+\Z", own) for own in here[:9]), "a point: %r" % here)
    demand(len(found) == len(right), "%d lines of %d" % (len(found), len(right)))


def judge_times(folder, random):
    """A table of a day, converted and, where each customer can be served alone, with its timetable."""
    day, capacity = Day(random), random.choice([20, 50])
    path, options, code = table_of(random, day, folder)
    target, names, plan = (os.path.join(folder, name) for name in ("instance.txt", "names.csv", "plan.txt"))
    words = [path, target, "--names", names, "--vehicles", "12", "--capacity", str(capacity), *options]
    words += ["--speed", str(day.speed)] if day.has_degrees else []
    out, errors, status = tool("convert", *words)
    demand((out, status) == (b"", 0), "convert: status %d, %r" % (status, errors))
    demand_notes("convert", errors)
    demand(("is read as" in errors) == (code in ("utf-16", "cp1252") and (
        code == "utf-16" or not got(path).isascii())), "%s: %r" % (code, errors))
    instance = read(got(target))
    scale = (instance.due(0) - instance.ready(0)) // (10 * (day.shuts - day.opens))
    demand(day.has_degrees or scale == right_scale(day), "another scale: %d" % scale)
    demand_instance(day, instance, capacity, scale)
    demand_places(day, instance, scale, errors)
    kind = "degrees" if day.has_degrees else "%d digits" % day.digits
    routes = [[i] for i in range(1, instance.count + 1)]
    if not all(walk_times(instance, route) for route in routes):
        return kind + ", no timetable"
    put(plan, plan_text(instance, routes))
    out, errors, status = tool("timetable", target, plan, "--csv", "--names", names, "--depart", "early",
                               "--dialect", "plain")
    demand(status == 0, "timetable: %r" % errors)
    demand_timetable(day, instance, scale, out.decode(), routes)
    demand_dialect(out.decode(), target, plan, names)
    return kind


KINDS = {
    "times": Kind("a table with times of the day, degrees, visits, empty fields and other codes: as it is meant", 30,
                  tools_by(judge_times)),
}
