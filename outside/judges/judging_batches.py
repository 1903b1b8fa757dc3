"""One run of `batch` on this machine: what it says of each instance is what the check says; what is done is kept."""
import csv
import os

from cases.random_texts import instance_words, laid_out
from judges.judging_layouts import tool
from judges.kind import Kind, program_by
from judges.running import demand, got, put, run_check

# What may be changed between two calls: nothing; a step that isn't done; a text; the instance as it is given, or the
# one in the folder of its step.
SPOILT = ("nothing", "broken", "plan", "certificate", "instance", "other")
# Sets of options, as words, and the columns that they make.
FEW = "--searchers 1 --bounders 1"
SETS = [
    (["--options", "--turns 2 " + FEW], [""]),
    (["--options", "--seconds 2 --neighbours 8 " + FEW], [""]),
    (["--options", "--turns 2 " + FEW, "--seeds", "1-2"], ["s1", "s2"]),
    (["--options", "one: --turns 1 " + FEW, "--options", "rounds: --seconds=1 --gap 900 " + FEW], ["one", "rounds"]),
    (["--options", "--turns=1", "--options", "b: --close", "--seeds", "7"], ["1.s7", "b.s7"]),
]
# The name of a file that is no instance, which has a row all the same.
UNREAD = ["zz"]
NAMES = ["a", "b 1", "c-2.5", "\u00e9", "_x", "d.txt", "-e", "0"]


def table_of(into):
    """The rows of the table, in the order of the files and the columns."""
    with open(os.path.join(into, "table.csv"), encoding="utf-8", newline="") as file:
        return list(csv.DictReader(file))


def done_in(into):
    """When each step was done."""
    return {name: os.stat(os.path.join(into, name, "done.txt")).st_mtime_ns for name in os.listdir(into)
            if os.path.exists(os.path.join(into, name, "done.txt"))}


def step_of(row):
    """The name of the step of a row."""
    return row["instance"] + ("@" + row["set"] if row["set"] else "")


def judge_row(program, folder, text, row, into):
    """A row of the table tells what the check says of the texts that are there."""
    own = os.path.join(into, step_of(row))
    plan, certificate = got(os.path.join(own, "plan.txt")), got(os.path.join(own, "certificate.txt"))
    line, errors, _ = run_check(program, folder, text, certificate, plan or None)
    if not line:
        demand(row["status"] == "wrong: " + errors.strip(), "%r, and the check says %r" % (row, errors))
        return
    kind, *numbers = line.split()
    right = {"BEST": ["BEST", *numbers, *numbers], "GAP": ["GAP", *numbers], "BOUND": ["OPEN", "", *numbers],
             "NO": ["NO PLAN", "", ""]}[kind]
    demand([row["status"], row["cost"], row["bound"]] == right, "%r, and the check says %r" % (row, line))
    demand(int(row["leaves"]) == certificate.count(b"\nP "), "leaves of %r" % row)
    demand(row["vehicles"] == (str(plan.count(b"Route #")) if plan else ""), "vehicles of %r" % row)
    cost, bound = (float(word) if word else None for word in (row["cost"], row["bound"]))
    part = "" if cost is None else 100 * (cost - bound) / cost if cost else 0
    demand(row["gap"] == part or abs(float(row["gap"]) - part) < 1e-5, "gap of %r" % row)
    demand(float(row["seconds"]) >= 0 and row["machine"] == os.uname().nodename, "%r" % row)
    is_closed = "--close" in got(os.path.join(into, "options")).decode()
    demand(is_closed or (row["met at"] == "") == (row["cost"] == ""), "%r" % row)
    demand(float(row["met at"] or 0) <= float(row["seconds"]), "%r" % row)


def changed(random, into, files, names):
    """Changes one thing between two runs; answers what, and the step that it is about."""
    name = random.choice(sorted(done_in(into)))
    own, kind = os.path.join(into, name), random.choice(SPOILT)
    if kind == "broken":
        os.remove(os.path.join(own, "done.txt"))
    elif kind in ("plan", "certificate"):
        held = got(os.path.join(own, kind + ".txt"))
        put(os.path.join(own, kind + ".txt"), held[:-2] + b"x\n" if held else b"x\n")
    elif kind == "other":
        # The instance in the folder of the step is another one, as a machine may have changed it.
        put(os.path.join(own, "instance.txt"), b"x")
    elif kind == "instance":
        path = files[names.index(name.split("@")[0])]
        put(path, got(path) + b"\n ")
    return kind, name


def liar(program, folder):
    """A program that spoils each certificate that it writes, and checks rightly."""
    path = os.path.join(folder, "liar")
    put(path, ("#!/bin/sh\n'%s' \"$@\"\nstatus=$?\n[ \"$1\" = check ] || [ ! -s \"$4\" ] || echo x >>\"$4\"\n"
               "exit $status\n" % program).encode())
    os.chmod(path, 0o755)
    return path


def judge_liar(program, folder, words):
    """What a machine spoiled is told as wrong, and solved anew by a call with another program."""
    out, errors, status = tool("batch", *[liar(program, folder) if word == program else word for word in words])
    told = [row["status"] for row in table_of(words[2]) if row["instance"] not in UNREAD]
    demand(status == 1 and all(word.startswith("wrong: ") for word in told), "spoiled: status %d, %r" % (status, told))
    out, errors, status = tool("batch", *words)
    demand(errors.count("is solved anew: wrong: ") == len(told), "spoiled: %d, %r" % (status, errors))


def judge_table(out, errors, status, rows, files, columns):
    """A table of all steps, in order, with a column for each set of options."""
    unread = [row for row in rows if row["status"].startswith("no instance: ")]
    demand((status, len(rows)) == (1 if unread else 0, (len(files) + bool(unread)) * len(columns)),
           "batch: status %d, %r, %r" % (status, out, errors))
    demand([row["set"] for row in rows] == columns * (len(files) + bool(unread)), "columns: %r" % rows)
    demand([row["instance"] for row in unread] == UNREAD * len(columns) * bool(unread), "unread: %r" % unread)
    demand(not any(row[name] for row in unread for name in ("customers", "cost", "vehicles", "bound", "seconds")),
           "unread: %r" % unread)
    lines = out.decode().split("\n")
    told = lines[0].split()[2:-3:2] if columns != [""] else [""]
    demand(told == columns, "columns: %r" % lines[0])
    return [row for row in rows if row not in unread]


def unread(random, source, text):
    """Puts a file that is no instance beside the others, or none; answers whether."""
    if random.randrange(2):
        return False
    put(os.path.join(source, UNREAD[0] + ".txt"), random.choice([b"", b"no instance", text + b" x", b"\xff"]))
    return True


def judge_batch(program, folder, random):
    """A batch of some columns, perhaps by a machine that lies first, and once more after a change."""
    source, into, texts, files = os.path.join(folder, "in"), os.path.join(folder, "runs"), [], []
    os.mkdir(source)
    for name in sorted(random.sample(NAMES, random.randint(1, 4))):
        files.append(os.path.join(source, name + ".txt"))
        texts.append(laid_out(random, instance_words(random, random.randint(1, 6))))
        put(files[-1], texts[-1])
    is_unread = unread(random, source, texts[0])
    sets, columns = random.choice(SETS)
    words = [source, "--into", into, "--program", program, "--jobs", str(random.randint(1, 3))] + sets
    is_spoiled = random.randrange(4) == 0
    if is_spoiled:
        judge_liar(program, folder, words)
    out, errors, status = tool("batch", *words)
    rows = judge_table(out, errors, status, table_of(into), files, columns)
    names = [row["instance"] for row in rows[::len(columns)]]
    demand(("zz" in out.decode()) == is_unread, "what isn't an instance: %r" % out)
    for row in rows:
        judge_row(program, folder, texts[names.index(row["instance"])], row, into)
    before = done_in(into)
    kind, name = changed(random, into, files, names)
    # The folder keeps the options.
    words = words if random.randrange(2) else words[:-len(sets)]
    standing = tool("batch", *words, "--status")
    out, errors, status = tool("batch", *words)
    after, alone = done_in(into), tool("batch", "--status", into, "--program", program)
    demand(standing[0] == out or kind != "nothing", "--status: %r, and then %r" % (standing, out))
    demand(sorted(alone[0].splitlines()) == sorted(out.splitlines()), "--status DIR: %r, and %r" % (alone, out))
    again = [other for other in before if after[other] != before[other]]
    right = [] if kind == "nothing" else [name] if kind != "instance" else [
        other for other in before if other.split("@")[0] == name.split("@")[0]]
    demand(sorted(again) == sorted(right), "%s: done again: %r" % (kind, again))
    demand(("has another text" in errors) == (kind in ("instance", "other")), "%s: %r" % (kind, errors))
    demand(("is solved anew: wrong" in errors) == (kind in ("plan", "certificate")), "%s: %r" % (kind, errors))
    demand(status == is_unread, "%s: status %d, %r" % (kind, status, errors))
    for row in judge_table(out, errors, status, table_of(into), files, columns):
        judge_row(program, folder, got(files[names.index(row["instance"])]), row, into)
    return kind + (", spoiled before" if is_spoiled else "")


KINDS = {
    "batches": Kind("some instances by batch, and again with something changed in between", 6, program_by(judge_batch)),
}
