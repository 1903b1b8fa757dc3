"""Folders of batches whose steps others have changed: the table says what the check and the reference say of the texts
as they stand, against the instances as they were given, and nothing outside is written."""
import os
import re
from functools import cached_property

from cases.forging import BESIDE, CERTIFICATE, DONE, INSTANCE, PLAN, forge
from cases.random_texts import instance_words, laid_out
from judges.judging_layouts import tool
from judges.kind import Kind, program_by
from judges.running import demand, got, put, run_check, solve
from reference import bounding
from reference.checking import check
from reference.instances import Fault, read
from reference.texts import read_solution, tenths

FEW = ["--turns", "1", "--searchers", "1", "--bounders", "1"]
COLUMNS = ({"": FEW}, {"few": FEW, "more.s2": FEW + ["--seed", "2"]})
NAMES = ("a", "b-1", "C_.2", "0")
ENDS = re.compile(rb"[0-9]{1,3} [0-9]{1,12} \S{1,255}( [0-9]{1,12})?\n\Z")
# No text of a batch is larger.
LARGEST = 1 << 30
# The file that links lead to, and what it holds.
KEPT, HOLDS = "kept", b"1 5 far\n"
# A program that takes each plan for the best one.
LIAR = """#!/bin/sh
[ "$1" = check ] && [ $# = 5 ] || exec '%s' "$@"
sed -n 's/^Cost /BEST /p' "$5"
"""


class Case:
    """A batch's folder: the words of its columns, the texts of its instances as they are given, in a folder too."""

    def __init__(self, program, folder, random):
        self.program, self.folder, self.columns = program, folder, dict(random.choice(COLUMNS))
        self.source, self.into, self.outside = (os.path.join(folder, name) for name in ("in", "runs", "outside"))
        for path in (self.source, self.into, self.outside):
            os.mkdir(path)
        put(os.path.join(self.outside, KEPT), HOLDS)
        self.texts = {name: laid_out(random, instance_words(random, random.randint(3, 6)))
                      for name in sorted(random.sample(NAMES, random.randint(1, 2)))}
        for name, text in self.texts.items():
            put(os.path.join(self.source, name + ".txt"), text)
        put(os.path.join(self.into, "options"), "".join(self.line(label) for label in self.columns).encode())
        for name, text in self.texts.items():
            texts = self.solved(text)
            for label in self.columns:
                self.lay_step(self.step(name, label), texts)
        self.further, self.lines = laid_out(random, instance_words(random, random.randint(3, 6))), {}

    @cached_property
    def other(self):
        """The texts of another instance."""
        return self.solved(self.further)

    def solved(self, text):
        """The texts that a machine leaves that has solved an instance."""
        out, errors, status, plan, certificate = solve(self.program, self.folder, text, FEW)
        return {INSTANCE: text, PLAN: plan or b"", CERTIFICATE: certificate or b"", "line.txt": out.encode(),
                "errors.txt": errors.encode(), DONE: b"%d 5 far%s\n" % (status, b" 4" if plan else b"")}

    def line(self, label):
        return " ".join(([label + ":"] if label else []) + self.columns[label]) + "\n"

    def step(self, name, label):
        """The folder of a step."""
        return os.path.join(self.into, name + ("@" + label if label else ""))

    def lay_step(self, own, texts):
        os.mkdir(own)
        for name, text in texts.items():
            put(os.path.join(own, name), text)

    def batch(self, way, program=None):
        """What the tool says: of the instances as they are given, of those that stand, or anew."""
        words = {"given": [self.source, "--into", self.into, "--status"], "standing": ["--status", self.into],
                 "anew": [self.source, "--into", self.into, "--jobs", "1"]}[way]
        return tool("batch", *words, "--program", program or self.program)


def held(own, name):
    """What a file of a step holds; None where it is none, or too large, or the folder is somewhere else."""
    path = os.path.join(own, name)
    is_plain = os.path.isfile(path) and not os.path.islink(path) and not os.path.islink(own)
    return got(path) if is_plain and os.path.getsize(path) <= LARGEST else None


def checked(case, text, own):
    """The line that both say of a step's texts, or nothing."""
    certificate, plan = held(own, CERTIFICATE) or b"", held(own, PLAN) or None
    if (text, certificate, plan) not in case.lines:
        found = run_check(case.program, case.folder, text, certificate, plan)
        demand(found == check(text, certificate, plan, bounding.least_by_labels), "the check says %r, %r" % found[:2])
        case.lines[text, certificate, plan] = found[0].strip()
    return case.lines[text, certificate, plan], plan


def state(case, text, own):
    """What the table is to say of a step, in words, and its cost and bound in tenths or None; is it an answer?"""
    done = held(own, DONE)
    if held(own, INSTANCE) != text or not ENDS.match(done or b""):
        return ["not done"], None, None
    status, milliseconds, _, *met = done.split()
    seconds = "%.1f" % (int(milliseconds) / 1000)
    if int(status) > 1:
        return [seconds, "failed"], None, None
    line, plan = checked(case, text, own)
    if not line:
        return [seconds, "wrong"], None, None
    kind, cost = line.split()[0].replace("BOUND", "OPEN"), read_solution(plan)[1] if plan else None
    certificate = held(own, CERTIFICATE)
    bound = tenths(re.search(rb"\nBOUND ([0-9.]+)\n", certificate)[1])
    words = [str(certificate.count(b"\nP ")), seconds]
    words = words if kind == "NO" else ["%d.%d" % divmod(bound, 10)] + ([gap(cost, bound)] if plan else []) + words
    if plan:
        words = ["%d.%d" % divmod(cost, 10), str(plan.count(b"Route #")), *words]
        words += ["%.1f" % (int(met[0]) / 1000)] if met and int(met[0]) <= int(milliseconds) else []
    return words + ["NO PLAN" if kind == "NO" else kind], cost, None if kind == "NO" else bound


def gap(cost, bound):
    return "%.2f %%" % (100 * (cost - bound) / cost if cost else 0.0)


def is_answer(words):
    return words[-1] in ("BEST", "GAP", "OPEN", "NO PLAN")


def row(case, name, text):
    """The cells of an instance that aren't empty, and whether all of its steps are answers."""
    try:
        head = [name, str(read(text).count)]
    except (Fault, TypeError):
        return [name, *["no instance"] * len(case.columns)], False
    found = [state(case, text, case.step(name, label)) for label in case.columns]
    are_answers = all(is_answer(words) for words, _, _ in found)
    if "" in case.columns:
        return head + found[0][0], are_answers
    cells = [word for words, cost, bound in found
             for word in ([words[0], gap(cost, bound)] if cost is not None else [words[-1]])]
    cost = min((cost for _, cost, _ in found if cost is not None), default=None)
    bound = max((bound for _, _, bound in found if bound is not None), default=None)
    cells += ["%d.%d" % divmod(number, 10) for number in (cost, bound) if number is not None]
    return head + cells + ([gap(cost, bound)] if None not in (cost, bound) else []), are_answers


def standing_text(case, name, is_known):
    """The instance of a name by which what stands is judged: as it was given here, or as the folder has it."""
    found = [held(case.step(name, label), INSTANCE) for label in case.columns]
    found = [text for text in found if text is not None]
    if is_known and name in case.texts:
        return case.texts[name] if case.texts[name] in found else None
    return found[0] if found else None


def has_folder(case, name):
    own = [case.step(name, label) for label in case.columns]
    return any(os.path.isdir(path) and not os.path.islink(path) for path in own)


def instances(case, way, is_known):
    """The texts by which the steps are judged, by the names of rows."""
    if way != "standing":
        return case.texts
    found = {name: standing_text(case, name, is_known) for name in sorted({*case.texts, *case.planted})}
    return {name: text for name, text in found.items()
            if text is not None or is_known and name in case.texts and has_folder(case, name)}


def demand_table(case, came, texts):
    """The table has a row for each instance, as the texts say, and the status tells whether all are answers."""
    out, errors, status = came
    told = out.decode()
    demand("Traceback" not in errors and (told + errors).replace("\n", "").isprintable(), "%r, %r" % (told, errors))
    if not texts:
        demand((told, status) == ("", 1) and "met no step" in errors, "%r, %r" % (told, errors))
        return
    rows, are_answers = {}, True
    for name, text in texts.items():
        rows[name], own = row(case, name, text)
        are_answers = are_answers and own
    lines = told.split("\n")[1:1 + len(rows)]
    found = {line.split()[0]: [re.sub(r"^(no instance|failed|wrong):.*", r"\1", cell) for cell in re.split(
        r" {2,}", re.sub(r"((?:no instance|failed|wrong):).*", r"\1", line))] for line in lines if line}
    demand(found == rows, "the table is %r, and right is %r" % (found, rows))
    demand(status == (0 if are_answers else 1), "status %d: %r, %r" % (status, told, errors))


def demand_kept(case):
    """Nothing outside the folder is written."""
    path = os.path.join(case.outside, KEPT)
    demand(not os.path.islink(path) and got(path) == HOLDS, "a link was written through: %r" % got(path))


def judge_liar(case, way):
    """By a program that believes each plan a plan below another one's bound, or where there is none, is told, without a
    table, and what it says isn't believed later. Answers whether it was told."""
    path = os.path.join(case.folder, "liar")
    put(path, (LIAR % case.program).encode())
    os.chmod(path, 0o755)
    out, errors, status = case.batch(way, path)
    demand("Traceback" not in errors, errors)
    if "wanted none below a bound" in errors:
        demand((out, status) == (b"", 1) and errors.rstrip("\n").split("\n")[-1].startswith("outside/batch: "), errors)
        demand(way != "anew" or not os.path.exists(os.path.join(case.into, "table.csv")), "a table of before stays")
        return True
    demand(not re.search(rb"-[0-9.]+ %", out), "a gap below 0: %r" % out)
    return False


def judge_anew(case):
    """The next call keeps what is right as it stands, and solves the rest."""
    right = {}
    for name, text in case.texts.items():
        for own in (case.step(name, label) for label in case.columns):
            if held(own, INSTANCE) == text and is_answer(state(case, text, own)[0]):
                right[own] = [held(own, part) for part in (PLAN, CERTIFICATE, DONE)]
    came = case.batch("anew")
    demand_table(case, came, case.texts)
    demand(came[2] == 0, "anew: %r" % (came,))
    for own, texts in right.items():
        demand([held(own, part) for part in (PLAN, CERTIFICATE, DONE)] == texts, "%s is lost" % own)


def judge_columns(case, random):
    """A column whose options write somewhere is refused."""
    path = os.path.join(case.into, "options")
    word = random.choice(["../x", "--plans=" + os.path.join(case.outside, KEPT), "\x1b[31m", "/"])
    put(path, got(path).replace(b"\n", b" " + word.encode() + b"\n", 1))
    out, errors, status = case.batch(random.choice(["given", "standing", "anew"]))
    demand((out, status) == (b"", 1) and "line 1: met " in errors and "wanted options" in errors
           and "\x1b" not in errors, "columns: %r, %r" % (out, errors))


def drawn_step(case, random):
    """The folder of one of the steps."""
    return case.step(random.choice(sorted(case.texts)), random.choice(sorted(case.columns)))


def judge_forged(program, folder, random):
    """A folder as machines may leave it, perhaps one whose texts were judged before."""
    case = Case(program, folder, random)
    case.planted, is_known = [], random.randrange(3) == 0
    if is_known:
        demand_table(case, case.batch("anew"), case.texts)
    ways = [forge(random, drawn_step(case, random), case) for _ in range(random.choice([1, 1, 2, 3]))]
    if random.randrange(4) == 0:
        os.mkdir(os.path.join(case.into, random.choice(BESIDE)))
        case.planted = ["zz"]
        case.lay_step(case.step("zz", sorted(case.columns)[0]), case.other)
    is_told, way = False, random.choice(["given", "anew"])
    if random.randrange(8) == 0:
        forge(random, drawn_step(case, random), case, "cost and bound")
        is_told, is_known = judge_liar(case, way), is_known or way == "anew"
    way = random.choice(["given", "standing"])
    came = case.batch(way)
    demand_table(case, came, instances(case, way, is_known))
    if random.randrange(6) == 0:
        judge_anew(case)
    demand_kept(case)
    if random.randrange(20) == 0:
        judge_columns(case, random)
        demand_kept(case)
    return ways[0] if not is_told else "contradiction"


KINDS = {
    "forged": Kind("a batch's folder that others have changed: only what the check says of it here is told", 40,
                   program_by(judge_forged)),
}
