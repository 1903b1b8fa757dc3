"""VRPLIB's layout with time windows, as CVRPLIB, the package vrplib, PyVRP and LKH have it."""
import re

from tools.layouts import Read, add
from tools.tool import quoted

KEY = re.compile(r"([A-Za-z_]\w*)\s*(?::\s*(.*))?\Z", re.ASCII)
# Keys that have to have one of these values, with the reason.
VALUES = {"TYPE": (("VRPTW", "CVRPTW", "CVRP"), "VRPTW, or CVRP with --horizon"),
          "EDGE_WEIGHT_TYPE": (("EUC_2D", "EXACT_2D"), "EUC_2D: ours has coordinates alone, and no other distances")}
# Keys that say nothing of the instance, or what is looked at alone.
TOLD = ("NAME", "COMMENT", "TYPE", "DIMENSION", "CAPACITY", "VEHICLES", "SALESMEN", "SERVICE_TIME", "SCALE",
        "EDGE_WEIGHT_TYPE", "EDGE_WEIGHT_FORMAT", "NODE_COORD_TYPE", "DISPLAY_DATA_TYPE")
# How a comment is told without a colon.
COMMENT = re.compile(r"COMMENT\s+(.*)\Z", re.I)
# The sections with how many words a line has behind the number of its place.
COORDINATES, DEMANDS, WINDOWS, SERVICES, DEPOTS = (
    "NODE_COORD_SECTION", "DEMAND_SECTION", "TIME_WINDOW_SECTION", "SERVICE_TIME_SECTION", "DEPOT_SECTION")
WIDTHS = {COORDINATES: 2, DEMANDS: 1, WINDOWS: 2, SERVICES: 1}
WRITTEN = "\n".join([
    "NAME : %s", "TYPE : VRPTW", "DIMENSION : %d", "VEHICLES : %d", "CAPACITY : %d", "EDGE_WEIGHT_TYPE : EUC_2D", ""])


class Sections:
    """A text's keys with their lines and values, and its sections with the lines below them."""

    def __init__(self, text):
        self.text, self.keys, self.sections = text, {}, {}
        below = None
        for line, told in text.filled():
            found = KEY.match(told)
            if not found and COMMENT.match(told):
                continue
            if found and found[1].upper() == "EOF":
                return
            if found:
                below = self.enter(line, told, found[1].upper(), found[2])
            elif below is None:
                text.refuse(line, quoted(told), "a key with a colon, or a section")
            else:
                below.append((line, told.split()))

    def enter(self, line, told, key, value):
        """Takes in a key or a section; answers the list of a section's lines."""
        if key in self.keys and key != "COMMENT" or key in self.sections:
            self.text.refuse(line, "%s again" % key, "it once")
        if key in TOLD:
            if not value and key not in ("NAME", "COMMENT"):
                self.text.refuse(line, quoted(told), "%s : and its value" % key)
            if key in VALUES and value.upper() not in VALUES[key][0]:
                self.text.refuse(line, "%s : %s" % (key, quoted(value)), VALUES[key][1])
            self.keys[key] = (line, value or "")
            return None
        if key in WIDTHS or key == DEPOTS:
            self.sections[key] = (line, [])
            return self.sections[key][1]
        self.text.refuse(line, key, "keys and sections that ours can hold: none of this one")

    def section(self, key, quantities):
        """A section's words by the number of their place."""
        if key not in self.sections:
            self.text.at_end(key)
        found = {}
        for line, words in self.sections[key][1]:
            number = quantities.node(line, words[0])
            if len(words) != 1 + WIDTHS[key]:
                self.text.refuse(line, "%d words" % len(words), "%d in %s" % (1 + WIDTHS[key], key))
            add(self.text, found, number, [(line, word) for word in words[1:]])
        return found

    def depot(self, numbers, quantities):
        """The one depot; -1 or the next section ends its list."""
        if DEPOTS not in self.sections:
            self.text.at_end(DEPOTS)
        head, lines = self.sections[DEPOTS]
        cells = [(line, word) for line, words in lines for word in words]
        ends = [place for place, (_, word) in enumerate(cells) if word == "-1"]
        found = cells[:ends[0]] if ends else cells
        if ends and len(cells) > ends[0] + 1:
            self.text.refuse(cells[ends[0] + 1][0], quoted(cells[ends[0] + 1][1]), "nothing behind the depots' -1")
        if not found:
            self.text.refuse(head, "no depot", "the number of one")
        if len(found) > 1:
            self.text.refuse(found[1][0], "a second depot, %s" % quoted(found[1][1]), "one: ours has no other")
        depot = quantities.node(*found[0])
        if depot not in numbers:
            self.text.refuse(depot.line, "the depot %d" % depot, "a number of %s" % COORDINATES)
        return depot


def services(found, numbers, depot, quantities, notes):
    """The services by the number of their place: a section, one number for all customers, or none at all."""
    if SERVICES in found.sections:
        if "SERVICE_TIME" in found.keys:
            found.text.refuse(found.sections[SERVICES][0], "SERVICE_TIME and %s" % SERVICES, "one of both")
        return found.section(SERVICES, quantities)
    line, word = found.keys.get("SERVICE_TIME", (1, "0"))
    if "SERVICE_TIME" not in found.keys:
        notes.append("neither SERVICE_TIME nor its section is there, so no service takes time")
    return {number: [(line, "0" if number == depot else word)] for number in numbers}


def windows(found, places, quantities):
    """The windows by the number of their place; in their stead the horizon, where there is one."""
    if WINDOWS in found.sections:
        quantities.refuse_horizon(found.sections[WINDOWS][0])
    elif quantities.horizon is not None:
        return {number: [(number.line, quantities.end_of_day(column)) for column in ("ready", "due")]
                for number in places}
    elif found.keys.get("TYPE", (1, ""))[1].upper() == "CVRP":
        found.text.refuse(found.keys["TYPE"][0], "TYPE : CVRP without %s" % WINDOWS,
                          "windows, or the end of the day by --horizon N")
    return found.section(WINDOWS, quantities)


def fleet_of(found, quantities, notes):
    """The number of vehicles by either key, or None; and the note on a scale."""
    keys = [key for key in ("VEHICLES", "SALESMEN") if key in found.keys]
    if len(keys) == 2:
        found.text.refuse(max(found.keys[key][0] for key in keys), "VEHICLES and SALESMEN", "one of both")
    if "SCALE" in found.keys:
        notes.append("SCALE : %s is passed over: it says how finely costs are counted there" % found.keys["SCALE"][1])
    return quantities.fleet(*found.keys[keys[0]]) if keys else None


def read(text, quantities):
    found, notes = Sections(text), ["each arc is truncated to a tenth here, however EUC_2D is rounded elsewhere"]
    if "EDGE_WEIGHT_TYPE" not in found.keys:
        text.at_end("EDGE_WEIGHT_TYPE : EUC_2D")
    places = found.section(COORDINATES, quantities)
    depot = found.depot(places, quantities)
    parts = [places, found.section(DEMANDS, quantities), windows(found, places, quantities),
             services(found, places, depot, quantities, notes)]
    for key, part in zip((DEMANDS, WINDOWS, SERVICES), parts[1:]):
        judge_numbers(found, key, part, places)
    if "DIMENSION" in found.keys:
        line, word = found.keys["DIMENSION"]
        if text.whole(line, word, "a dimension", 0, 10 ** 9) != len(places):
            text.refuse(line, quoted(word), "the %d of %s" % (len(places), COORDINATES))
    nodes = {number: quantities.row([cell for part in parts for cell in part[number]]) for number in places}
    fleet, capacity = fleet_of(found, quantities, notes), found.keys.get("CAPACITY")
    return Read(found.keys.get("NAME", (1, ""))[1], fleet, capacity and quantities.capacity(*capacity), nodes, depot,
                notes, None)


def judge_numbers(found, key, part, places):
    """Refuses a section with a number that no place has, or without one that a place has."""
    for number in part:
        if number not in places:
            found.text.refuse(number.line, "number %d" % number, "one of %s" % COORDINATES)
    for number in places:
        if number not in part:
            found.text.refuse(found.sections[key][0], "no line of %s for number %d" % (key, number), "one")


def write(problem):
    """The depot has the number 1, and customer i the number i + 1."""
    def section(key, low, high):
        return [key] + [" ".join(str(value) for value in (i + 1, *row[low:high]))
                        for i, row in enumerate(problem.rows)]
    head = WRITTEN % (problem.name, len(problem.rows), problem.fleet, problem.capacity)
    return head + "\n".join([*section(COORDINATES, 0, 2), *section(DEMANDS, 2, 3), *section(WINDOWS, 3, 5),
                             *section(SERVICES, 5, 6), DEPOTS, "1", "-1", "EOF", ""])
