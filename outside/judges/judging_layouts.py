"""One run of `convert`: instances of ours to each layout and back, texts as they are found, and texts with something
wrong."""
import os

from cases.tool_cases import CHANGES, WRITERS, is_same, odd_instance, option_lacks, values
from cases.tool_texts import joined, number_of, with_blanks
from judges.kind import Kind, tools_by
from judges.running import demand, got, put, run, shown
from reference.instances import Fault, read
from tools.places import OUTSIDE

LAYOUTS = ("solomon", "vrplib", "csv")


def tool(name, *words):
    """A tool's standard output, its standard error and its status."""
    out, errors, status = run([os.path.join(OUTSIDE, name), *words])
    return out, shown(errors), status


def demand_notes(name, errors):
    """Standard error has nothing but notes."""
    head = "outside/%s: note: " % name
    demand(all(line.startswith(head) for line in errors.splitlines()), "%s: %r" % (name, errors))


def demand_refusal(name, path, line, came):
    """One line with the file, the line, what was met and what was wanted; status 1 and nothing on standard output."""
    out, errors, status = came
    head = "outside/%s: %s: line %d: met " % (name, path, line)
    demand((out, status) == (b"", 1), "%s isn't refused: status %d, %r" % (name, status, errors))
    demand(errors.startswith(head) and ", wanted " in errors and errors.count("\n") == 1 and errors.endswith("\n"),
           "%s: %r, and line %d is wrong" % (name, errors, line))


def demand_refusals(name, path, line, came):
    """A line for each fault of a table, of which one is in this line; else as above."""
    out, errors, status = came
    head, told = "outside/%s: %s: line " % (name, path), errors.splitlines()
    demand((out, status) == (b"", 1), "%s isn't refused: status %d, %r" % (name, status, errors))
    demand(all(one.startswith(head) and ": met " in one and ", wanted " in one for one in told[:20]) and len(told) <= 21
           and any(one.startswith("%s%d: " % (head, line)) for one in told), "%s: %r, and line %d is wrong" % (
               name, errors, line))


def options_of(instance):
    """What a table doesn't hold."""
    return ["--name=" + instance.name.decode(), "--vehicles", str(instance.fleet), "--capacity", str(instance.capacity)]


def text_of(instance):
    head = "%s\nVEHICLE\nNUMBER CAPACITY\n%d %d\nCUSTOMER\nCUST NO. XCOORD. YCOORD. DEMAND READY TIME DUE DATE " \
           "SERVICE TIME\n" % (instance.name.decode(), instance.fleet, instance.capacity)
    rows = [" ".join(str(value) for value in (i, *row)) + "\n" for i, row in enumerate(values(instance))]
    return (head + "".join(rows)).encode()


def converted(source, target, layouts, options=()):
    """What convert writes, as our reader reads it where it is ours."""
    out, errors, status = tool("convert", source, target, "--from", layouts[0], "--to", layouts[1], *options)
    demand((out, status) == (b"", 0), "convert from %s to %s: status %d, %r" % (*layouts, status, errors))
    demand_notes("convert", errors)
    if layouts[1] != "ours":
        return None
    try:
        return read(got(target))
    except Fault as fault:
        demand(False, "convert from %s wrote no instance: %s" % (layouts[0], fault))


def judge_round_trip(folder, random):
    """An instance of ours, to each layout and back."""
    instance = odd_instance(random)
    first, there, back = (os.path.join(folder, name) for name in ("instance", "there", "back"))
    put(first, text_of(instance))
    for layout in LAYOUTS:
        converted(first, there, ("ours", layout))
        found = converted(there, back, (layout, "ours"), options_of(instance) if layout == "csv" else ())
        demand(is_same(found, instance), "by %s and back it is another instance" % layout)
    return "the same"


def drawn(random, layout, most, scale=1):
    """An instance whose name the layout holds, and the lines of its text."""
    instance = odd_instance(random, most)
    while layout == "solomon" and instance.name.startswith(b"#"):
        instance = odd_instance(random, most)
    return instance, WRITERS[layout](random, instance, scale)


def without_windows(random, instance, lines, scale):
    """Takes the windows out of VRPLIB's lines; answers the end of the day, by which all are open then."""
    lines[:] = [line for line in lines if line.part != "TIME_WINDOW_SECTION"]
    horizon = random.choice([1, 10 ** 5, random.randint(1, 10 ** 5)])
    instance.rows = [row[:3] + (0, 10 * scale * horizon, row[5]) for row in instance.rows]
    return horizon


def judge_layout(folder, random):
    """A text as it is found, from each layout."""
    layout, scale = random.choice(LAYOUTS), random.choice([1, 1, 10])
    instance, lines = drawn(random, layout, 60, scale)
    source, target = os.path.join(folder, "source"), os.path.join(folder, "target")
    put(source, joined(random, with_blanks(random, lines)))
    options = ["--scale", str(scale)] + (options_of(instance) if layout == "csv" else [])
    if layout == "vrplib" and random.randrange(4) == 0:
        options += ["--horizon", str(without_windows(random, instance, lines, scale))]
        put(source, joined(random, with_blanks(random, lines)))
    if layout != "csv" and random.randrange(4) == 0:
        instance.fleet, instance.capacity = random.randint(1, 1000), random.randint(1, 10_000)
        options += options_of(instance)
    found = converted(source, target, (layout, "ours"), options)
    demand(is_same(found, instance), "%s: another instance" % layout)
    return "%s by %d" % (layout, scale)


def judge_wrong_layout(folder, random):
    """A text with one thing wrong: refused with its line, and nothing is written."""
    layout = random.choice(LAYOUTS)
    instance, lines = drawn(random, layout, 30)
    change = random.choice(CHANGES[layout])
    wrong = change(random, lines, layout)
    lines = with_blanks(random, lines)
    source, target = os.path.join(folder, "source"), os.path.join(folder, "target")
    put(source, joined(random, lines))
    words = options_of(instance) if layout == "csv" else []
    if change is option_lacks:
        at = random.choice([1, 3])
        del words[at:at + 2]
    came = tool("convert", source, target, "--from", layout, "--to", "ours", *words)
    demand_refusal("convert", source, number_of(lines, wrong), came)
    demand(got(target) is None, "convert wrote a file after a refusal")
    return "%s: %s" % (layout, change.__name__)


KINDS = {
    "round_trips": Kind("numbers at the limits, by convert to each layout and back: the same", 8,
                        tools_by(judge_round_trip)),
    "layouts": Kind("an instance in another layout, as files are found, by convert: the same", 40,
                    tools_by(judge_layout)),
    "wrong_layouts": Kind("an instance in another layout with one thing wrong: refused with its line", 40,
                          tools_by(judge_wrong_layout)),
}
