"""One run of `convert` on a table in a spreadsheet's spelling, with names, or on an instance without a plan."""
import csv
import os

from cases.random_texts import instance_words, laid_out, solution_of
from cases.table_cases import name_drawn, table_lines
from cases.tool_cases import is_same, odd_instance, values
from cases.tool_texts import Line, field_of, joined, number_of, pick, with_blanks, worded
from judges.judging_layouts import converted, demand_notes, demand_refusal, options_of, text_of, tool
from judges.kind import Kind, tools_by
from judges.running import demand, got, put
from reference.instances import plan_cost, read
from reference.optimum import least_cost
from tools.names import clean, table_of
from tools.solomon_layout import BEFORE_ROWS

FORESEEN = "there is no plan: "


def moved(instance, rows):
    """What convert makes of rows with coordinates below 0: the least one is 0."""
    least = [min(0, min(row[axis] for row in rows)) for axis in (0, 1)]
    instance.rows = [(row[0] - least[0], row[1] - least[1], *own[2:]) for row, own in zip(rows, instance.rows)]
    return instance, any(least)


def plan_text(instance, routes):
    return "".join(line + "\n" for line in solution_of(routes, plan_cost(instance, routes))).encode()


def judge_table(folder, random):
    """A table in any spelling: the same instance; its names by their numbers, and in the timetable."""
    scale, instance = random.choice([1, 10]), odd_instance(random, 60)
    shifts = [random.choice([0, 0, random.randint(1, 10_000)]) for _ in "xy"]
    rows = [(row[0] - shifts[0], row[1] - shifts[1], *row[2:]) for row in values(instance)]
    instance, is_moved = moved(instance, rows)
    names = [name_drawn(random, random.choice(",;\t|")) for _ in rows]
    source, target, table, plan = (os.path.join(folder, name) for name in ("source", "target", "names", "plan"))
    put(source, joined(random, with_blanks(random, table_lines(random, rows, scale, names))))
    found = converted(source, target, ("csv", "ours"), [
        "--scale", str(scale), "--names", table, *options_of(instance)])
    demand(is_same(found, instance), "a table: another instance")
    right = [clean(name) or (str(number) if number else "depot") for number, name in enumerate(names)]
    held = got(table).decode()
    separator = ";" if held.startswith(("number;", "# vrptw units:")) and "number;" in held else ","
    demand(held[held.find("number" + separator):] == table_of(right, separator=separator), "names: %r" % got(table))
    put(plan, plan_text(found, [[i] for i in range(1, len(rows))]))
    out, errors, status = tool("timetable", target, plan, "--csv", "--names", table, "--dialect", "plain")
    demand(status == 0, "timetable: %r" % errors)
    demand_notes("timetable", errors)
    stops = list(csv.reader(out.decode().split("\n\n")[0].splitlines()))
    demand([row[-1] for row in stops] == ["name"] + [right[int(row[1])] for row in stops[1:]], "names: %r" % stops)
    return "moved" if is_moved else "in place"


def judge_foreseen(folder, random):
    """What is noted of an instance of few customers: where it is that there is no plan, there is none."""
    count = random.randint(1, 5)
    words = instance_words(random, count)
    for row in random.sample(range(count + 1), random.choice([0, 0, 1, 2])):
        # A window of one moment, or a depot that closes soon.
        words[BEFORE_ROWS + 7 * row + 5] = words[BEFORE_ROWS + 7 * row + 4]
    text = laid_out(random, words)
    source, target = os.path.join(folder, "instance"), os.path.join(folder, "there")
    put(source, text)
    out, errors, status = tool("convert", source, target, "--from", "ours", "--to", "ours")
    demand((out, status) == (b"", 0), "convert: status %d, %r" % (status, errors))
    demand_notes("convert", errors)
    instance = read(text)
    is_told, has_plan = FORESEEN in errors, least_cost(instance) is not None
    demand(not (is_told and has_plan), "there is a plan: %r" % errors)
    is_full = any(instance.demand(i) > instance.capacity for i in range(1, instance.count + 1))
    total = sum(instance.demand(i) for i in range(1, instance.count + 1))
    demand(is_told or not is_full and total <= instance.fleet * instance.capacity, "a demand isn't noted")
    return "a plan" if has_plan else "none, and it is told" if is_told else "none"


def wrong_names(random, lines, count):
    """Puts one thing wrong into the lines of a table of names; answers the wrong line, or None where it is the end."""
    kind, line = random.randrange(5), pick(random, lines, "row")
    if kind == 0:
        line = lines[0]
        return worded(line, field_of(line, random.randrange(2)), "other")
    if kind == 1:
        return worded(line, field_of(line, 0), random.choice(["x", "-1", "1.5", str(count + 1), ""]))
    if kind == 2:
        lines.remove(line)
        return None
    if kind == 3:
        copy = Line("row", line.text, line.row, line.part, line.order)
        lines.append(copy)
        return copy
    line.put(line.words() + ["more"])
    return line


def judge_wrong_names(folder, random):
    """A table of names with one thing wrong: refused with its line."""
    instance = odd_instance(random, 12)
    source, plan, table = (os.path.join(folder, name) for name in ("source", "plan", "names"))
    routes = [[i] for i in range(1, instance.count + 1)]
    put(source, text_of(instance))
    put(plan, plan_text(instance, routes))
    order, separator = random.sample(range(2), 2), random.choice(",;\t|")
    lines = [Line("heading" if i is None else "row", separator.join(
        (["number", "name"] if i is None else [str(i), random.choice(["Ulm", "Café"])])[place] for place in order),
        i or 0, separator, order) for i in [None, *range(instance.count + 1)]]
    wrong = wrong_names(random, lines, instance.count)
    lines = with_blanks(random, lines)
    put(table, joined(random, lines))
    words = random.choice([["timetable"], ["draw"]])
    demand_refusal(words[0], table, number_of(lines, wrong), tool(*words, source, plan, "--names", table))
    return words[0]


KINDS = {
    "tables": Kind("a spreadsheet's table with names, by convert: the same, and the names", 30, tools_by(judge_table)),
    "foreseen": Kind("where convert notes that there is no plan, there is none, by all plans", 30,
                     tools_by(judge_foreseen)),
    "wrong_names": Kind("a table of names with one thing wrong: refused with its line", 30,
                        tools_by(judge_wrong_names)),
}
