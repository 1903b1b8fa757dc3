"""Tables as spreadsheets write them, whole and with one thing wrong in a known line."""
from cases.tool_texts import Line, field_of, found_as, pick, worded

COLUMNS = ["x", "y", "demand", "ready", "due", "service"]
X, Y, DEMAND, READY, DUE, SERVICE = range(6)
# A name or a remark, in this column behind the six.
FURTHER = 6
PARTS = ["School", "Café", "O'Neill", "a & b", "<b>", "Straße 5", "Łódź", "№ 7", "1", "12", "x", "ready", "Ω", "日本",
         "-", "%", "Route", "0", "a->b", "=1+1"]
AMBIGUOUS = ["1,000", "12,345", "-1,000", "+7,125"]
WRONG_CLOCKS = ["6:60", "6:5", ":30", "-1:00", "13:00 AM", "0:30 pm", "6:00:60", "6h60", "6.5 Uhr", "1000:00"]


def name_drawn(random, separator):
    """A name, now and then with the separator, quotes or blanks in it."""
    name = " ".join(random.choice(PARTS) for _ in range(random.choice([1, 1, 2, 3])))
    return random.choice([name, name, name + separator + " Eck", 'the "%s"' % name, "", "  %s " % name])


def quoted_as(word, separator, always):
    """A field as a table has it."""
    needs = always or separator in word or '"' in word or word[:1] == "#"
    return '"%s"' % word.replace('"', '""') if needs else word


def clock(value):
    return "%d:%02d" % divmod(value, 60)


class Dialect:
    """How a table spells separators, decimals and times; a comma parts decimals where none parts fields, or in
    quotes."""

    def __init__(self, random, scale):
        self.random, self.scale = random, scale
        self.separator = random.choice(",;\t|")
        self.always = random.randrange(2) == 0
        self.point = random.choice(".," if self.separator != "," or self.always else ".")
        self.has_clock = random.randrange(2) == 0
        self.is_told = random.randrange(3) == 0

    def number(self, value, field):
        """The word of a value; by a scale of 10 coordinates and times have a tenth of it, with a decimal."""
        if field == DEMAND or self.scale == 1:
            if field in (READY, DUE, SERVICE) and self.has_clock and value < 60_000:
                return clock(value)
            word = found_as(self.random, value) if value >= 0 else "%d" % value
            return word if self.point == "." else word.rstrip(".").replace(".", ",")
        sign, tenths = "-" if value < 0 else "", abs(value)
        if field in (READY, DUE, SERVICE) and self.has_clock and value < 60_000 and value % 10 == 0:
            return clock(value // 10)
        if field in (READY, DUE, SERVICE) and self.has_clock and value < 250:
            # What may be hours doesn't stand beside times of the day.
            return "%s:%02d" % (clock(value // 10), value % 10 * 6)
        return "%s%d%s%d" % (sign, tenths // 10, self.point, tenths % 10)

    def line(self, cells, order):
        return self.separator.join(quoted_as(cells[place], self.separator, self.always) for place in order)


def table_lines(random, rows, scale, names=None):
    """A heading and rows with columns in any order, one more among them, in any dialect."""
    dialect, order = Dialect(random, scale), random.sample(range(7), 7)
    heading = [random.choice([name, name.upper(), " %s " % name])
               for name in COLUMNS + ["remark" if names is None else random.choice(["name", "Customer"])]]
    # A single quote in a name of a row isn't split by its words: rows are made anew where a field is changed.
    lines = [Line("heading", dialect.line(heading, order), 0, dialect.separator, order)]
    for i, row in enumerate(rows):
        cells = [dialect.number(value, field) for field, value in enumerate(row)]
        lines.append(Line("row", dialect.line(cells + [names[i] if names else "a remark"], order), i,
                          dialect.separator, order))
    above = {"\t": random.choice(["sep=\t", '"sep=\t"'])}.get(
        dialect.separator, random.choice(["sep=%s", "SEP=%s", '"sep=%s"']).replace("%s", dialect.separator))
    return ([Line("separator", above)] if dialect.is_told else []) + lines


def of_row(random, lines):
    return pick(random, lines, "row")


def put(line, field, word):
    """Puts a word into a field of a row, in quotes where the separator is in it."""
    return worded(line, field_of(line, field), word if line.part not in word else '"%s"' % word)


def wrong_columns(random, lines, layout):
    line = pick(random, lines, "heading")
    worded(line, field_of(line, random.randrange(6)), random.choice(["", "x y", "size"]))
    return line


def column_again(random, lines, layout):
    line = pick(random, lines, "heading")
    worded(line, field_of(line, FURTHER), random.choice(["x", "Y", "demand", "DUE"]))
    return line


def open_quote(random, lines, layout):
    line = lines[-1]
    words = line.words()
    line.put(['"' + words[0].strip('"')] + words[1:])
    return line


def depot_alone(random, lines, layout):
    """A depot and no customer: told at the end."""
    lines[:] = [line for line in lines if line.role != "row" or not line.row]


def wrong_separator(random, lines, layout):
    """A first line that tells what doesn't separate."""
    lines[:] = [line for line in lines if line.role != "separator"]
    lines.insert(0, Line("separator", random.choice(["sep=x", "sep=.", '"sep=a"', "sep=1", "Sep=:"])))
    return lines[0]


def ambiguous(random, lines, layout):
    """A comma that may part thousands."""
    return put(of_row(random, lines), random.choice([X, Y, READY, DUE]), random.choice(AMBIGUOUS))


def ambiguous_point(random, lines, layout):
    """A point that may part thousands, in a table of semicolons; in another one two points."""
    line = of_row(random, lines)
    return put(line, random.choice([X, Y, READY, DUE]), "1.000" if line.part == ";" else "1.000.000")


def two_commas(random, lines, layout):
    return put(of_row(random, lines), random.randrange(6), random.choice(["1,000,000", "1.000,5", "1,5.0", ",", "1,"]))


def wrong_clock(random, lines, layout):
    """A time that is none, or one where none is wanted."""
    line = of_row(random, lines)
    if random.randrange(3) == 0:
        return put(line, random.choice([X, Y, DEMAND]), "06:00")
    return put(line, random.choice([READY, DUE, SERVICE]), random.choice(WRONG_CLOCKS))


def too_far(random, lines, layout):
    """A place more than 10,000 from the least one, by a coordinate below 0."""
    rows = [line for line in lines if line.role == "row"]
    for line in rows:
        put(line, X, "0")
    put(random.choice(rows[1:]), X, "-1")
    return put(rows[0], X, "10000")


CHANGES = [wrong_columns, column_again, open_quote, depot_alone, wrong_separator, ambiguous, ambiguous_point,
           two_commas, wrong_clock, too_far]
