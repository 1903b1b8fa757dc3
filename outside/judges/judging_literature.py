"""One run of `bench/solomon` on files that are named as Solomon's and Homberger's: its rows are those of all plans."""
import csv
import os
import re
from importlib.machinery import SourceFileLoader
from importlib.util import module_from_spec, spec_from_loader

from cases.random_texts import instance_words, laid_out
from judges.kind import Kind, program_by
from judges.running import demand, got, put, run, shown as as_text
from reference.instances import Instance, read
from reference.optimum import least_cost
from reference.texts import shown
from tools.places import TOP

NAMES = ["c101", "R102", "rc201", "C205", "r1_2_1", "RC2_4_10", "C1_2_1"]
# The names of files that are passed over.
OTHERS = ["r1_6_1.txt", "notes.txt", "c101.csv", "c1011.txt"]
MOST_CUSTOMERS, CUSTOMERS = 6, (2, 4)


def drawn(random, source, names):
    """Files in the folder; the least costs, or None, by the capital name and the count of customers."""
    found = {}
    for name in names:
        most = random.choice([CUSTOMERS[-1], *CUSTOMERS, random.randint(2, MOST_CUSTOMERS)])
        text = laid_out(random, instance_words(random, most))
        whole, is_apart = read(text), "_" not in name and most in CUSTOMERS and random.randrange(3) > 0
        own = name + random.choice([".%d", "_%d", "-0%d"]) % most if is_apart else name
        put(os.path.join(source, own + random.choice([".txt", ".TXT"])), text)
        if is_apart and random.randrange(3) == 0:
            # The same customers: what both files have is taken once.
            put(os.path.join(source, name + ".Txt"), text)
            is_apart = False
        counts = [whole.count] if "_" in name or is_apart else [count for count in CUSTOMERS if count <= whole.count]
        for count in counts:
            own = Instance(whole.name, whole.fleet, whole.capacity, whole.rows[:count + 1])
            found[name.upper(), count] = least_cost(own)
    return found


def known(random, costs, path):
    """Published costs of some of the instances, right ones and wrong ones; what the table has to say of each."""
    lines, right = ["# what is known"], {}
    for (name, count), cost in costs.items():
        kind = random.choice(["right", "wrong", "none"])
        right[name, count] = "" if cost is None else "proved"
        if kind != "none":
            told = 123 if cost is None else max(1, cost + random.choice([-1, 1]) * (kind == "wrong"))
            lines.append("%s %d %s Hand1999" % (random.choice([name, name.lower()]), count, shown(told)))
            right[name, count] = "met" if told == cost else "differs"
    put(path, "\n".join(lines + [""]).encode())
    return right


# Cost, bound, verdict and published cost, and what is said, by hand.
SAID = [("10.0", "9.0", "GAP", 100, "met"), ("10.1", "9.0", "GAP", 100, "above"), ("9.9", "9.0", "GAP", 100, "differs"),
        ("10.2", "10.1", "GAP", 100, "differs"), ("10.0", "10.0", "BEST", 100, "met"), ("", "9.0", "OPEN", 100, ""),
        ("10.1", "10.1", "BEST", 100, "differs"), ("", "", "NO PLAN", 100, "differs"), ("", "", "NO PLAN", None, ""),
        ("", "10.1", "OPEN", 100, "differs"), ("10.0", "10.0", "BEST", None, "proved"), ("9.0", "8.0", "GAP", None, "")]


def judge_said():
    """What is said of rows by hand."""
    path = os.path.join(TOP, "bench", "solomon")
    loader = SourceFileLoader("solomon", path)
    module = module_from_spec(spec_from_loader("solomon", loader))
    loader.exec_module(module)
    for cost, bound, status, known_cost, right in SAID:
        told = module.said({"cost": cost, "bound": bound, "status": status}, known_cost)
        demand(told == right, "%s %s %s beside %s: %s, and %s is right" % (
            cost, bound, status, known_cost, told, right))


def literature(*words):
    """What bench/solomon says on both streams, and its status."""
    out, errors, status = run([os.path.join(TOP, "bench", "solomon"), *words])
    return out, as_text(errors), status


def judge_faults(random, source, words):
    """One thing wrong: refused in a line with its file, and nothing on standard output."""
    kind = random.choice([0, 1, 2, 3, 4, 4])
    if kind == 4:
        path, line = os.path.join(source, "r212.9.txt"), " met 2 customers, wanted the 9 of its name"
        put(path, laid_out(random, instance_words(random, 2)))
    elif kind == 0:
        path, line = words[words.index("--published") + 1], " line 2: met "
        put(path, b"# none\nc101 25 191.3\n")
    elif kind == 1:
        path, line = next(os.path.join(source, name) for name in os.listdir(source)), " line 1: "
        put(path, b"x y\n")
    elif kind == 2:
        path, line = source, " met no file of Solomon or Homberger, wanted "
        for name in os.listdir(source):
            os.rename(os.path.join(source, name), os.path.join(source, "_" + name))
    else:
        path, line = "words: argument --customers", " met \"2,401\", wanted "
        words = [word.replace("2,4", "2,401") for word in words]
    out, errors, status = literature(*words)
    demand((out, status, errors.count("\n")) == (b"", 2 if kind == 3 else 1, 1), "%r, status %d" % (errors, status))
    demand(errors.startswith("bench/solomon: %s:%s" % (path, line)), "%r, and %s %s is right" % (errors, path, line))
    return "refused"


def judge_literature(program, folder, random):
    """Files, closed, beside costs that are known."""
    judge_said()
    source, into, path = (os.path.join(folder, name) for name in ("theirs", "into", "published"))
    os.mkdir(source)
    names = random.sample(NAMES, random.randint(1, 3))
    costs = drawn(random, source, names)
    before = os.listdir(source)
    right = known(random, costs, path)
    words = [source, "--into", into, "--published", path, "--customers", ",".join(map(str, CUSTOMERS)),
             "--options", "--close", "--program", program]
    if random.randrange(4) == 0:
        return judge_faults(random, source, words)
    others = random.sample(OTHERS, random.randint(0, 2))
    for other in others:
        put(os.path.join(source, other), b"none of theirs")
    out, told, status = literature(*words)
    demand(all("%s is passed over" % os.path.join(source, other) in told for other in others), "%r" % told)
    with open(os.path.join(into, "literature.csv"), encoding="utf-8", newline="") as file:
        rows = list(csv.DictReader(file))
    demand({(row["instance"], int(row["customers"])): row["said"] for row in rows} == right, "%r, and %r is right" % (
        rows, right))
    for row in rows:
        cost = costs[row["instance"], int(row["customers"])]
        wanted = ("NO PLAN", "") if cost is None else ("BEST", shown(cost))
        demand((row["status"], row["cost"]) == wanted, "%r, and %r is right" % (row, wanted))
        held = os.path.join(into, "runs", "%s.%s" % (row["instance"], row["customers"]), "plan.txt")
        demand(row["vehicles"] == ("" if cost is None else str(got(held).count(b"Route #"))), "vehicles: %r" % row)
    demand(status == ("differs" in right.values()), "status %d, %r" % (status, told))
    classes = {(re.match("[RC]+[12]", name)[0], count) for name, count in costs}
    demand(len(out.decode().split("\n\n")[1].splitlines()) == 1 + len(classes), "classes: %r" % out)
    demand(sorted(os.listdir(source)) == sorted(before + others), "the folder of theirs isn't as it was")
    return "differs" if status else "as published"


KINDS = {
    "literature": Kind("files named as Solomon's by bench/solomon, beside published costs: least costs by all plans", 6,
                       program_by(judge_literature)),
}
