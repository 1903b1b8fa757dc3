"""One run of `convert` on a sheet as people keep it, in six languages: what is doubtful in it is noted with its line,
and nothing else; or with several faults, all of which are told as they stand."""
import os
import re

from judges.judging_layouts import demand_notes, tool
from judges.kind import Kind, tools_by
from judges.running import demand, got, put
from reference.instances import read

COLUMNS = ("name", "lat", "lon", "demand", "ready", "due", "service")
NAME, LAT, LON, DEMAND, READY, DUE, SERVICE = range(7)
LANGUAGES = {
    "English": ("Customer", "Latitude", "Longitude", "Quantity", "From", "Until", "Service time"),
    "German": ("Kunde", "Breite", "Länge", "Menge (Kisten)", "von", "bis", "Dauer [min]"),
    "French": ("Client", "Latitude", "Longitude", "Quantité", "Ouverture", "Fermeture", "Durée"),
    "Spanish": ("Cliente", "Latitud", "Longitud", "Cantidad", "Desde", "Hasta", "Duración"),
    "Dutch": ("Klant", "Breedtegraad", "Lengtegraad", "Hoeveelheid", "Van", "Tot", "Duur"),
    "Italian": ("Cliente", "Latitudine", "Longitudine", "Quantità", "Dalle", "Alle", "Durata"),
}
TOTALS = ("", "Summe", "Total:", "Totale", "Gesamt")
# Places in whose midst a sheet lies, and what is said of them where all have latitude and longitude exchanged: of a
# place in the sea or the ice, or of one that Europe has.
EUROPE, NOBODY = "exchanged they lie in western Europe, ", "nobody lives "
SOMEWHERE = {(52.5, 13.4): EUROPE, (40.4, -3.7): EUROPE, (40.7, -74.0): NOBODY, (-23.5, -46.6): NOBODY,
             (28.6, 77.2): NOBODY, (-33.9, 18.4): NOBODY, (-1.9, 30.1): None, (24.7, 46.7): None}
DOUBTFUL = re.compile(r"note: doubtful: (.*)\n")
# What may be put into a field of a customer, and what is wanted there.
WRONG = {LAT: [("x", "degrees, a number"), ("99,5", "lat of -90 to 90"), ("", "degrees, a number")],
         LON: [("181", "lon of -180 to 180"), ("13 E", "degrees, a number")],
         DEMAND: [("viel", "a demand, a number"), ("-3", "a demand of 0 to 10000"), ("10001", "a demand of 0 to 10000")],
         READY: [("7:61", "a ready time, "), ("früh", "a ready time, ")],
         DUE: [("07:75", "a due date, "), ("05:00", "a due date that isn't before")],
         SERVICE: [("lang", "a service time, "), ("-1", "a service time of 0 to 1000000")]}


class Sheet:
    """Rows of words, the depot's first, with lines above and below; the headings are those of a language."""

    def __init__(self, random, most=9):
        self.random, self.language = random, random.choice(sorted(LANGUAGES))
        self.centre = random.choice(list(SOMEWHERE))
        self.titles = random.choice([[], ["Tour Montag"], ["Tour 7;;;;;;", ""]])
        self.rows = [["Lager", *self.place(), "", "06:00", "18:00", ""]] + [
            ["Kunde %d" % i, *self.place(), "%d" % random.randint(1, 9), "07:%02d" % random.randint(0, 59), "16:30", "%d"
             % random.randint(25, 40)] for i in range(1, random.randint(6, most) + 1)]
        self.order = random.sample(range(7), 7)
        self.total = random.choice(TOTALS) if random.randrange(3) == 0 else None
        self.sums = None

    def place(self):
        """Degrees with a decimal comma, some kilometres from each other."""
        return ["%.5f" % (at + self.random.choice([-1, 1]) * self.random.uniform(0.02, 0.06)) for at in self.centre]

    def summed(self):
        """The sums of demands and of services."""
        return [str(sum(int(row[column] or 0) for row in self.rows)) for column in (DEMAND, SERVICE)]

    def line_of(self, i):
        """The line of a row, below the lines above and the heading."""
        return len(self.titles) + 2 + i

    def text(self):
        found = [[heading for heading in LANGUAGES[self.language]], *self.rows]
        if self.total is not None:
            sums = self.sums or self.summed()
            found.append([self.total, "", "", sums[0], "", "", self.random.choice(["", sums[1]])])
        lines = [";".join(row[place].replace(".", ",") if place in (LAT, LON) else row[place] for place in self.order)
                 for row in found]
        return "".join(line + "\r\n" for line in self.titles + lines).encode()


def same_name(sheet, i, j):
    sheet.rows[j][NAME] = sheet.rows[i][NAME]
    return [j], "the same name stands in lines %d, %d (%s)" % (*sorted(map(sheet.line_of, (i, j))), sheet.rows[i][NAME])


def same_row(sheet, i, j):
    sheet.rows[j] = list(sheet.rows[i])
    return [j], "the same row stands in lines %d, %d" % tuple(sorted(map(sheet.line_of, (i, j))))


def same_place(sheet, i, j):
    sheet.rows[j][LAT:DEMAND] = sheet.rows[i][LAT:DEMAND]
    first, second = sorted((i, j))
    return [j], "the same place has several names: lines %d, %d (%s, %s)" % (
        sheet.line_of(first), sheet.line_of(second), sheet.rows[first][NAME], sheet.rows[second][NAME])


def far(sheet, i, j):
    """A degree of latitude is 111 km; the others are at most 17 km from the depot."""
    sheet.rows[i][LAT] = "%.1f" % (sheet.centre[0] + 4)
    return [i], "%s, line %d: more than 10 times as far from the depot as the median" % (
        sheet.rows[i][NAME], sheet.line_of(i))


def swapped(sheet, i, j):
    i = sheet.random.choice([i, 0])
    sheet.rows[i][LAT], sheet.rows[i][LON] = sheet.rows[i][LON], sheet.rows[i][LAT]
    return [i], "%s, line %d: lat and lon look swapped" % (sheet.rows[i][NAME], sheet.line_of(i))


def all_swapped(sheet, i, j):
    """All places exchanged, where that may be known."""
    if SOMEWHERE[sheet.centre] is None:
        return [], None
    for row in sheet.rows:
        row[LAT], row[LON] = row[LON], row[LAT]
    return [], "lat and lon look swapped in all rows: %s" % SOMEWHERE[sheet.centre]


def short_window(sheet, i, j):
    sheet.rows[i][READY], sheet.rows[i][DUE] = "09:00", "09:20"
    return [i], "%s, line %d: a window shorter than its service, " % (sheet.rows[i][NAME], sheet.line_of(i))


def long_service(sheet, i, j):
    sheet.rows[i][SERVICE] = "721"
    return [i], "%s, line %d: a service that is longer than the day" % (sheet.rows[i][NAME], sheet.line_of(i))


PLANTED = (same_name, same_row, same_place, far, swapped, all_swapped, all_swapped, short_window, long_service)


def converted(folder, sheet):
    source, target = os.path.join(folder, "sheet.csv"), os.path.join(folder, "instance.txt")
    put(source, sheet.text())
    # At such a speed the limits hold places that are thousands of kilometres apart.
    return source, target, tool("convert", source, target, "--vehicles", "20", "--capacity", "90", "--speed", "200")


def judge_doubts(folder, random):
    """A sheet with one doubtful thing, or none."""
    sheet, plant = Sheet(random), random.choice((*PLANTED, None))
    i, j = random.sample(range(1, len(sheet.rows)), 2)
    right = plant(sheet, i, j)[1] if plant else None
    source, target, (out, errors, status) = converted(folder, sheet)
    demand((out, status) == (b"", 0), "convert: status %d, %r" % (status, errors))
    demand_notes("convert", errors)
    told = DOUBTFUL.findall(errors)
    demand(len(told) == (right is not None) and all(one.startswith(right) for one in told),
           "%s: %r, and %r is right" % (sheet.language, told, right))
    demand(("the sum of its column" in errors) == (sheet.total is not None), "the total: %r" % errors)
    demand(("lines above the heading" in errors) == bool(sheet.titles), "the title: %r" % errors)
    instance = read(got(target))
    demand(instance.count == len(sheet.rows) - 1, "%d customers of %d" % (instance.count, len(sheet.rows) - 1))
    # What changes the plan stands first, and what is rounded last, in one line.
    order = [line for line in errors.splitlines() if "doubtful" in line or "headings are read" in line]
    demand("doubtful" in order[0] or not told, "the order of notes: %r" % errors)
    demand(errors.splitlines()[-1].count("rounded") >= 1, "the last note: %r" % errors)
    return plant.__name__ if plant else "nothing"


def judge_faults(folder, random):
    """A sheet with many faults: each is told with its line, its heading, the customer's name and what stands there; of
    more than twenty the first ones, and how many more there are."""
    sheet = Sheet(random, random.choice([9, 40]))
    # A line of sums is known by its name where no number above stands in the way.
    sheet.total, sheet.sums = sheet.total or None, sheet.summed()
    places = random.sample([(i, column) for i in range(1, len(sheet.rows)) for column in WRONG],
                           random.choice([1, 2, 5, 19, 20, 21, 30]))
    right = []
    for i, column in sorted(places):
        word, wanted = random.choice(WRONG[column])
        if word == "05:00" and (i, READY) in places:
            word, wanted = WRONG[DUE][0]
        sheet.rows[i][column] = word
        if column in (DEMAND, SERVICE) and word.lstrip("-").isdigit():
            sheet.total = None
        right.append('line %d: met "%s" in "%s" of %s' % (
            sheet.line_of(i), word, LANGUAGES[sheet.language][column], sheet.rows[i][NAME]) + "|" + wanted)
    source, target, (out, errors, status) = converted(folder, sheet)
    demand((out, status) == (b"", 1) and got(target) is None, "convert: status %d, %r" % (status, errors))
    told, more = errors.splitlines(), max(0, len(right) - 20)
    demand(len(told) == min(20, len(right)) + (more > 0), "%d lines for %d faults: %r" % (
        len(told), len(right), errors))
    for one in told[:20]:
        fits = [part for part in right if all(word in one for word in part.split("|"))]
        demand(one.startswith("outside/convert: %s: line " % source) and fits, "no such fault: %r of %r" % (one, right))
        right.remove(fits[0])
    demand(not more or told[20] == "outside/convert: %s: and %d faults more" % (source, more), "%r" % told[-1])
    return "more than 20" if more else "up to 20"


KINDS = {
    "doubts": Kind("a sheet in one of six languages with one doubtful thing, by convert: noted with its line", 30,
                   tools_by(judge_doubts)),
    "many_faults": Kind("a sheet with many faults, by convert: each is told as it stands there, up to twenty", 30,
                        tools_by(judge_faults)),
}
