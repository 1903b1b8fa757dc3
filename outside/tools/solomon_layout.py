"""Solomon's and Homberger's layout as their files are found: headings in any case, blank lines, numbers with decimals.

Ours is a case of it: a text that our reader takes is read as that, however its words are cut into lines.
"""
from reference import instances
from tools.layouts import Read, add
from tools.tool import quoted

HEADINGS = ["VEHICLE", "NUMBER CAPACITY", None, "CUSTOMER",
            "CUST NO. XCOORD. YCOORD. DEMAND READY TIME DUE DATE SERVICE TIME"]
ROW = "seven numbers: customer, x, y, demand, ready time, due date, service time"
# How many words of ours stand before its rows.
BEFORE_ROWS = 18


def read(text, quantities):
    """An instance, whose depot has the number 0."""
    cells = cells_of_ours(text) or cells_of_lines(text)
    name, fleet, capacity, rows = cells[0], cells[1], cells[2], cells[3:]
    quantities.refuse_horizon(rows[0][0][0])
    nodes = {}
    for row in rows:
        add(text, nodes, quantities.node(*row[0]), quantities.row(row[1:]))
    if 0 not in nodes:
        text.refuse(rows[0][0][0], "no row with the number 0", "the depot's row")
    return Read(name[1], quantities.fleet(*fleet), quantities.capacity(*capacity), nodes, 0, [], None)


def cells_of_ours(text):
    """Name, fleet, capacity and rows as words with their lines, where our reader takes the text."""
    whole = "\n".join(text.lines).encode()
    try:
        instances.read(whole)
    except instances.Fault:
        return None
    cells = [(line, word.decode()) for word, line in instances.words(whole)]
    return [cells[0], cells[4], cells[5]] + [cells[at:at + 7] for at in range(BEFORE_ROWS, len(cells), 7)]


def bare(line):
    """A heading without what differs between files: blanks, points and the case."""
    return "".join(line.upper().replace(".", "").split())


def cells_of_lines(text):
    """The same of a text with a heading, a pair of numbers or a row in each line."""
    lines = text.filled()

    def following(wanted):
        for line, told in lines:
            return line, told
        text.at_end(wanted)

    name, numbers = following("a name"), None
    for heading in HEADINGS:
        line, told = following(heading or "two numbers: vehicles and capacity")
        if heading is None:
            numbers = [(line, word) for word in told.split()]
            if len(numbers) != 2:
                text.refuse(line, quoted(told), "two numbers: vehicles and capacity")
        elif bare(told) != bare(heading):
            text.refuse(line, quoted(told), heading)
    rows = [[(line, word) for word in told.split()] for line, told in lines]
    for row in rows:
        if len(row) != 7:
            text.refuse(row[0][0], "a row of %d words" % len(row), ROW)
    if not rows:
        text.at_end(ROW)
    return [name] + numbers + rows


def write(problem):
    """The columns and blank lines of Solomon's files."""
    rows = ["%5d" % i + "".join("%10d" % value for value in row) for i, row in enumerate(problem.rows)]
    return "\n".join([
        problem.name, "", "VEHICLE", "NUMBER     CAPACITY", "%4d%13d" % (problem.fleet, problem.capacity), "",
        "CUSTOMER", "CUST NO.  XCOORD.   YCOORD.   DEMAND    READY TIME  DUE DATE  SERVICE TIME", "", *rows, ""])


def write_ours(problem):
    rows = [" ".join(str(value) for value in (i, *row)) for i, row in enumerate(problem.rows)]
    return "\n".join([problem.name, "VEHICLE", "NUMBER CAPACITY", "%d %d" % (problem.fleet, problem.capacity),
                      "CUSTOMER", HEADINGS[-1], *rows, ""])
