"""Instances in other layouts as they are found, whole and with one thing wrong in a known line."""
from cases import table_cases
from cases.table_cases import table_lines
from cases.tool_texts import Line, field_of, found_as, pick, without, worded
from reference.instances import read

NAMES = ["x", "a" * 32, "#1", "EOF", "NAME", "VEHICLE", "CUSTOMER", "a:b", ":", "-n", "--name=x", '"q"', "'", "a,b",
         ";", "$(x)", "~!@%", "0", "1.5", "[1]", "Route", "\\n", "&<>", "`x`", "C1-25", "Cost", "*"]
# Words that are no whole number within any limit of a row.
WRONG = ["x", "0.5", "-10001", "1000001", "nan", "inf", "1e99", "0x1", "1_0", "1.2.3", "1/2", "\u0661", "--1", "7" * 40]
WRONG_IDS = ["x", "-1", "1.5", "1e99"]
WHATS = ("NODE_COORD_SECTION", "DEMAND_SECTION", "TIME_WINDOW_SECTION", "SERVICE_TIME_SECTION")
PLACES = ((0, 2), (2, 3), (3, 5), (5, 6))
# The places of a row's words.
DEMAND, READY, DUE, SERVICE = 2, 3, 4, 5
HEADING = "CUST NO.  XCOORD.   YCOORD.    DEMAND   READY TIME  DUE DATE   SERVICE   TIME"


def extreme(random, low, high):
    return random.choice([low, high, random.randint(low, high)])


def odd_instance(random, most=400):
    """An instance with an odd name and numbers at the limits."""
    count = random.choice([1, 2, 3, random.randint(4, min(25, most)), most if random.randrange(8) == 0 else 2])
    rows = [[extreme(random, 0, 10_000), extreme(random, 0, 10_000), extreme(random, 1, 10_000),
             *sorted([extreme(random, 0, 10 ** 6), extreme(random, 0, 10 ** 6)]), extreme(random, 0, 10 ** 6)]
            for _ in range(count + 1)]
    rows[0][2] = rows[0][5] = 0
    head = [random.choice(NAMES), "VEHICLE", "NUMBER CAPACITY", "%d %d" % (
        extreme(random, 1, 1000), extreme(random, 1, 10_000)), "CUSTOMER", HEADING]
    lines = head + [" ".join(str(value) for value in (i, *row)) for i, row in enumerate(rows)]
    return read("\n".join(lines).encode())


def values(instance):
    """Rows in units, as texts have them."""
    return [row[:3] + tuple(time // 10 for time in row[3:]) for row in instance.rows]


def is_same(first, second):
    return (first.name, first.fleet, first.capacity, first.rows) == (
        second.name, second.fleet, second.capacity, second.rows)


def words_of(random, row, scale):
    """The six words of a row; by a scale of 10 coordinates and times have a tenth of their values, with a decimal."""
    return [found_as(random, value) if scale == 1 or field == DEMAND else "%d.%d" % divmod(value, 10)
            for field, value in enumerate(row)]


def solomon_lines(random, instance, scale):
    """Headings in any case, rows in any order."""
    def cased(words):
        return random.choice([words, words.lower(), words.title(), words.replace(" ", "\t"), words.replace(".", "")])
    lines = [Line("name", instance.name.decode()), Line("heading", cased("VEHICLE")),
             Line("heading", cased("NUMBER CAPACITY")),
             Line("numbers", "%s %s" % tuple(found_as(random, value) for value in (instance.fleet, instance.capacity))),
             Line("heading", cased("CUSTOMER")), Line("heading", cased(HEADING))]
    rows = [Line("row", " ".join([found_as(random, i), *words_of(random, row, scale)]), i)
            for i, row in enumerate(values(instance))]
    random.shuffle(rows)
    return lines + rows


def csv_lines(random, instance, scale):
    return table_lines(random, values(instance), scale)


def vrplib_lines(random, instance, scale):
    """Sections in any order, numbers of the places that are others, the depot's among them."""
    rows = values(instance)
    depot = random.choice([0, 1, 1, len(rows), random.randint(0, len(rows))])
    numbers = [depot] + sorted(number for number in range(len(rows) + 1) if number != depot)[:len(rows) - 1]
    keys = [("NAME", instance.name.decode()), ("TYPE", random.choice(["VRPTW", "vrptw", "CVRPTW", "CVRP"])),
            ("DIMENSION", len(rows)), (random.choice(["VEHICLES", "VEHICLES", "SALESMEN"]), instance.fleet),
            ("CAPACITY", instance.capacity), ("EDGE_WEIGHT_TYPE", random.choice(["EUC_2D", "EUC_2D", "EXACT_2D"])),
            ("COMMENT", "a : b"), ("COMMENT", "#"), ("SCALE", "1000")]
    random.shuffle(keys)
    parts = []
    for what, (low, high) in zip(WHATS, PLACES):
        part = [Line("row", " ".join([str(numbers[i])] + words_of(random, row, scale)[low:high]), i, what)
                for i, row in enumerate(rows)]
        parts.append([Line("section", random.choice([what, what.lower()]), 0, what)] + random.sample(part, len(part)))
    parts.append([Line("section", "DEPOT_SECTION", 0, "DEPOT_SECTION"), Line("depot", "%d" % depot)])
    if random.randrange(2):
        parts[-1].append(Line("end", "-1"))
    random.shuffle(parts)
    heads = [Line("key", random.choice(["%s : %s", "%s: %s", "%s:%s", "%s\t:\t%s"]) % key, 0, key[0]) for key in keys]
    heads.insert(random.randrange(len(heads)), Line("comment", "COMMENT (a, b)"))
    return heads + [line for part in parts for line in part] + ([Line("eof", "EOF")] if random.randrange(2) else [])


WRITERS = {"solomon": solomon_lines, "csv": csv_lines, "vrplib": vrplib_lines}


def put_field(lines, row, field, word, layout):
    """Puts a word into a field of a row of the instance; answers the line."""
    if layout == "vrplib":
        place = next(place for place, (low, high) in enumerate(PLACES) if low <= field < high)
        line = next(line for line in lines if line.role == "row" and line.row == row and line.part == WHATS[place])
        return worded(line, 1 + field - PLACES[place][0], word)
    line = next(line for line in lines if line.role == "row" and line.row == row)
    return worded(line, 1 + field if layout == "solomon" else field_of(line, field), word)


def wrong_number(random, lines, layout):
    """A number that is none, or out of its limits; in a table a fraction is right."""
    row = pick(random, lines, "row")
    field = random.randrange(6)
    words = [word for word in WRONG if layout != "csv" or word != "0.5"]
    return put_field(lines, row.row, field, random.choice(words), layout)


def wrong_depot(random, lines, layout):
    return put_field(lines, 0, random.choice([DEMAND, SERVICE]), "5", layout)


def no_demand(random, lines, layout):
    last = max(line.row for line in lines if line.role == "row")
    return put_field(lines, random.randint(1, last), DEMAND, random.choice(["0", "0.0"]), layout)


def reversed_window(random, lines, layout):
    row = pick(random, lines, "row").row
    put_field(lines, row, READY, "90", layout)
    return put_field(lines, row, DUE, "89.0", layout)


def wrong_width(random, lines, layout):
    """A word too many or too few."""
    line = pick(random, lines, "row")
    words = line.words()
    line.put(words + ["1"] if random.randrange(2) else words[:-1])
    return line


def wrong_byte(random, lines, layout):
    line = random.choice(lines)
    line.text += "\udcff"
    return line


def again(random, lines, layout):
    """A row whose number was there, or in VRPLIB a key or a section."""
    line = random.choice([line for line in lines if line.role in ("row", "key") and line.part != "COMMENT"])
    copy = Line(line.role, line.text, line.row, line.part)
    lines.insert(lines.index(line) + 1, copy)
    return copy


def too_many(random, lines, layout):
    """400 customers more: the one is wrong that is the 401st in the text."""
    without(lines, "key", "DIMENSION")
    for line in [line for line in lines if line.role == "row" and line.row == 1]:
        added = [Line("row", line.text, number, line.part, line.order) for number in range(1000, 1400)]
        at = lines.index(line) + 1
        lines[at:at] = added if layout == "csv" else [worded(copy, 0, str(copy.row)) for copy in added]
    customers = [line for line in lines if line.role == "row" and line.row and line.part not in WHATS[1:]]
    return customers[400]


def wrong_ids(random, lines, layout):
    return worded(pick(random, lines, "row"), 0, random.choice(WRONG_IDS))


def no_depot_row(random, lines, layout):
    """No row with the number 0: told at the first row."""
    lines.remove(next(line for line in lines if line.role == "row" and line.row == 0))
    return next(line for line in lines if line.role == "row")


def wrong_heading(random, lines, layout):
    line = pick(random, lines, "heading")
    line.text = random.choice(["VEHICLES", "x", line.text + " x", line.text[1:]])
    return line


def wrong_numbers(random, lines, layout):
    """Vehicles and capacity in Solomon's layout."""
    line = pick(random, lines, "numbers")
    line.text = random.choice(["0 5", "5 0", "1001 5", "5 10001", "5", "5 5 5", "x 5", "5 1.5", "-5 5", "5,5"])
    return line


def cut_off(random, lines, layout):
    """The end within the headings, or behind them."""
    del lines[random.randint(1, 6):]


def option_lacks(random, lines, layout):
    """Nothing in the text, whose options are left out: told at the end."""


def nothing(random, lines, layout):
    lines[:] = [Line("blank", "")]


def fleet_key(lines):
    return next(line.part for line in lines if line.part in ("VEHICLES", "SALESMEN"))


def both_fleets(random, lines, layout):
    """The vehicles by two keys: the later one is told."""
    there = next(line for line in lines if line.part == fleet_key(lines))
    line = Line("key", "%s : 5" % ("VEHICLES" if there.part == "SALESMEN" else "SALESMEN"))
    lines.insert(lines.index(there) + 1, line)
    return line


def no_windows(random, lines, layout):
    """No windows and no horizon: told at the type CVRP, else at the end."""
    without(lines, "section", WHATS[2])
    without(lines, "row", WHATS[2])
    line = next(line for line in lines if line.part == "TYPE")
    return line if line.text.upper().endswith("CVRP") else None


def wrong_key(random, lines, layout):
    key, words = random.choice([
        ("TYPE", ["ACVRP", "TSP", "VRPTW2"]), ("EDGE_WEIGHT_TYPE", ["EXPLICIT", "CEIL_2D", "GEO", "EUC_3D"]),
        ("DIMENSION", ["1", "500", "x", "1.5"]), (fleet_key(lines), ["0", "1001", "x", "1.5", "-1"]),
        ("CAPACITY", ["0", "10001", "x", "1.5", ""])])
    line = next(line for line in lines if line.part == key)
    line.text = random.choice(["%s : %s", "%s: %s"]) % (key, random.choice(words))
    return line


def unknown_key(random, lines, layout):
    line = Line("key", random.choice(["EDGE_WEIGHT_SECTION", "RELEASE_TIME_SECTION", "DISTANCE : 100", "CAPACITIES : 5",
                                      "VEHICLES_DEPOT_SECTION", "PRIZE_SECTION"]))
    lines.insert(random.randrange(len(lines) - 2), line)
    return line


def no_key(random, lines, layout):
    without(lines, "key", random.choice([fleet_key(lines), "CAPACITY", "EDGE_WEIGHT_TYPE"]))


def no_section(random, lines, layout):
    what = random.choice(WHATS[:2] + ("DEPOT_SECTION",))
    without(lines, "section", what)
    without(lines, "row", what)
    if what == "DEPOT_SECTION":
        lines[:] = [line for line in lines if line.role not in ("depot", "end")]


def row_lacks(random, lines, layout):
    """A row away: told at the heading of its section, and of a place at the line of its demand or at the depot's."""
    line = random.choice([line for line in lines if line.role == "row" and line.part != WHATS[0]])
    lines.remove(line)
    return next(other for other in lines if other.role == "section" and other.part == line.part)


def row_too_many(random, lines, layout):
    """A number that no place has."""
    line = random.choice([line for line in lines if line.role == "row" and line.part != WHATS[0]])
    copy = Line("row", line.text, line.row, line.part)
    lines.insert(lines.index(line), worded(copy, 0, "777"))
    return copy


def wrong_depots(random, lines, layout):
    line = next(line for line in lines if line.role == "depot")
    kind = random.randrange(4)
    if kind == 0:
        line.text = random.choice(["777", "x", "1.5"])
    elif kind == 1:
        lines.insert(lines.index(line) + 1, Line("depot", random.choice(["2", line.text])))
        return lines[lines.index(line) + 1]
    elif kind == 2:
        lines.remove(line)
        return next(line for line in lines if line.part == "DEPOT_SECTION")
    else:
        line.text += " -1 7"
    return line


def stray_line(random, lines, layout):
    line = Line("stray", random.choice(["1 2 3", "CAPACITY 5", "?", ": x"]))
    lines.insert(0, line)
    return line


ANY = [wrong_number, wrong_number, wrong_depot, reversed_window, wrong_width, nothing, too_many]
# A table may have stops without demand, and signs in another code.
OF_FILES = [no_demand, wrong_byte]
CHANGES = {
    "solomon": ANY + OF_FILES + [again, wrong_ids, no_depot_row, wrong_heading, wrong_numbers, cut_off],
    "csv": ANY + table_cases.CHANGES + [option_lacks],
    "vrplib": ANY + OF_FILES + [
        again, again, wrong_ids, wrong_key, wrong_key, unknown_key, no_key, no_section, row_lacks, row_too_many,
        wrong_depots, stray_line, both_fleets, no_windows],
}
