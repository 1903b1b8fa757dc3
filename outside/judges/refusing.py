"""Runs of the program in which allocations are refused, by the library that `refusing.c` is.

Each run is one of `solve`, `check` or `solve --close` on one of three instances, `solve --start` on the two smaller
ones, or `solve` with sets or from a tree, and one way to refuse: the allocation of one number, that one and all after
it, or one thread. Every other run of a case takes the next number in turn, from
1, and the others draw theirs."""
import functools
import os
import struct
import subprocess

from cases.random_texts import HEAD
from judges.kind import Kind
from judges.running import demand, got, put, run, run_check, shown
from judges.solving import judge_plan, least
from reference import checking
from reference.bounding import TooLong
from reference.instances import read
from tools.places import OUTSIDE, TOP

# Seconds that a run may take.
LONGEST = 120
# What stands in both files before a run.
OLD = b"as it was before\n"
EXAMPLE = os.path.join(TOP, "examples", "c1_25.txt")
TWO = ["T"] + HEAD[:3] + ["2", "1"] + HEAD[5:] + "0 0 0 0 0 1000 0  1 3 4 1 0 1000 0  2 6 8 1 0 1000 0".split()
THREE = ["T"] + HEAD[:3] + ["2", "2"] + HEAD[5:] + ("0 0 1 0 0 1000 0  1 100 1 1 0 1000 0  2 100 2 1 0 1000 0  "
                                                  "3 100 0 1 0 1000 0").split()
FEW = ["--searchers", "1", "--bounders", "1", "--turns", "2"]
# What a run with a start begins with: each customer alone, and the best plan.
STARTS = {2: b"Route #1: 1\nRoute #2: 2\nCost 30.0\n", 3: b"Route #1: 2 1\nRoute #2: 3\nCost 401.0\n"}
STARTED = ["solve"] + FEW + ["--start"]
ANSWERS = {"BEST": 0, "NO": 0, "GAP": 1, "OPEN": 1}
CASES = [(size, words, way) for size in (2, 3, 25) for words in (["solve"] + FEW, ["check"], ["solve", "--close"])
         for way in ("one", "all after", "thread") if way != "thread" or words[-1] == "2"]
CASES += [(size, STARTED, way) for size in STARTS for way in ("one", "all after")]
CASES += [(size, ["solve"] + FEW + [word], way) for size in (2, 3, 25) for word in ("--sets=20", "--tree")
          for way in ("one", "all after")]


def build(folder):
    """The library, built from its source."""
    path = os.path.join(folder, "refusing.so")
    source = os.path.join(OUTSIDE, "judges", "refusing.c")
    subprocess.run(["cc", "-O2", "-shared", "-fPIC", "-o", path, source], check=True)
    return path


@functools.lru_cache(None)
def instance_text(size):
    if size == 25:
        return got(EXAMPLE)
    return " ".join(TWO if size == 2 else THREE).encode() + b"\n"


def variables_of(folder, library, way, number):
    """What tells the library which allocations to refuse; with the number 0 none."""
    counts = os.path.join(folder, "counts")
    put(counts, bytes(24))
    told = {"LD_PRELOAD": library, "ALLOCATIONS": counts}
    if way == "thread":
        return {**told, "THREADS_REFUSED": str(number)}
    return {**told, "REFUSED": str(number), "REFUSED_LAST": str(number if way == "one" else 2 ** 62)}


def counted(folder):
    """How many allocations and threads were asked for, and how many were refused."""
    return struct.unpack("3q", got(os.path.join(folder, "counts")))


def words_run(program, folder, library, case, number):
    """The lines, the status, both files and the counts of a case in which this number is refused. A check finds the
    texts that a run of `solve` left."""
    size, words, way = case
    paths = [os.path.join(folder, name) for name in ("instance", "solution", "certificate")]
    put(paths[0], instance_text(size))
    if words[-1] == "--tree":
        tree = texts_of(program, folder, size)[1]
    if words[0] == "check":
        for path, text in zip(paths[1:], texts_of(program, folder, size)):
            put(path, text)
        ordered = [paths[0], paths[2], "--solution", paths[1]]
    else:
        for path in paths[1:]:
            put(path, OLD)
        ordered = paths
    words = words[1:]
    if words[-1:] == ["--start"]:
        words = words + [os.path.join(folder, "start")]
        put(words[-1], STARTS[size])
    if words[-1:] == ["--tree"]:
        words = words + [os.path.join(folder, "tree")]
        put(words[-1], tree)
    variables = variables_of(folder, library, way, number)
    out, errors, status = run([program, case[1][0]] + ordered + words, variables, (), LONGEST)
    return shown(out), shown(errors), status, got(paths[1]), got(paths[2]), counted(folder)


KEPT = {}


def texts_of(program, folder, size):
    """Both texts of a run in which nothing was refused."""
    if ("texts", size) not in KEPT:
        paths = [os.path.join(folder, name) for name in ("instance", "solution", "certificate")]
        put(paths[0], instance_text(size))
        run([program, "solve"] + paths + FEW)
        KEPT["texts", size] = [got(path) for path in paths[1:]]
    return KEPT["texts", size]


def unrefused(program, folder, library, case):
    """What comes of a case when nothing is refused; counted once a process."""
    name = (case[0], tuple(case[1]))
    if name not in KEPT:
        KEPT[name] = words_run(program, folder, library, case, 0)
    return KEPT[name]


def judge_memory(program, folder, library, random, seed):
    """The run of this number. Answers what came of it."""
    case = CASES[seed % len(CASES)]
    size, words, way = case
    usual = unrefused(program, folder, library, case)
    asked = usual[5][1 if way == "thread" else 0]
    in_turn, is_drawn = divmod(seed // len(CASES), 2)
    number = random.randint(1, asked + 1) if is_drawn or in_turn > asked else in_turn + 1
    came = words_run(program, folder, library, case, number)
    told = "%s of %d customers, %s from %d of %d" % (" ".join(words), size, way, number, asked)
    found = judge_came(program, folder, case, usual, came, told)
    named = " ".join(words[:1] + [word for word in words[-1:] if word.startswith("--")])
    return "%s %d, %s: %s" % (named, size, way, found)


def judge_came(program, folder, case, usual, came, told):
    """Memory or a thread that was refused is told, or the answer is right; where no thread takes part and nothing was
    refused, it is the usual one."""
    out, errors, status, solution, certificate, (_, _, refused) = came
    solves, alone = case[1][0] == "solve", case[1][:1 + len(FEW)] != ["solve"] + FEW
    if status == 4:
        demand(refused > 0, "%s: memory without a refusal" % told)
        judge_want(came, usual, solves, alone, told)
        return errors.strip()
    if alone:
        demand(came[:3] == usual[:3], "%s: %r, and %r is usual" % (told, came[:3], usual[:3]))
        if came[3:5] == usual[3:5]:
            return "as usual" if refused else "no refusal, as usual"
        demand(solves and refused, "%s: files %r, and %r is usual" % (told, came[3:5], usual[3:5]))
    demand(errors == "" and out.split() and ANSWERS.get(out.split()[0]) == status, "%s: %r" % (told, came[:3]))
    judge_texts(program, folder, case[0], out, status, solution, certificate, told)
    return "%s%s%s" % ("" if refused else "no refusal, ", out.split()[0], ", other texts" if alone else "")


def judge_want(came, usual, solves, alone, told):
    """Memory or a thread was refused: one line, and each file is empty or as it was."""
    lines = ["vrptw: memory\n"] + ([] if alone else ["vrptw: thread\n"])
    demand(came[0] == "" and came[1] in lines, "%s: %r" % (told, came[:3]))
    untouched = [(OLD, OLD), (b"", OLD), (b"", b"")] if solves else [usual[3:5]]
    demand(came[3:5] in untouched, "%s: files %r" % (told, came[3:5]))


def judge_texts(program, folder, size, out, status, solution, certificate, told):
    """Both texts say what the line says, by the program's check and by the reference's; each pair of texts once."""
    key = (size, out, solution, certificate)
    if key in KEPT:
        return
    text = instance_text(size)
    wanted = (out.replace("OPEN", "BOUND"), "", status)
    demand((solution == b"") == (out.split()[0] in ("NO", "OPEN")), "%s: a solution's text beside %r" % (told, out))
    checked = run_check(program, folder, text, certificate, solution or None)
    demand(checked == wanted, "%s: %r, check: %r" % (told, out, checked))
    if size < 25:
        judge_plan(read(text), solution)
    try:
        checked = checking.check(text, certificate, solution or None, least)
    except TooLong:
        checked = wanted
    demand(checked == wanted, "%s: %r, reference: %r" % (told, out, checked))
    KEPT[key] = True


KINDS = {
    "memory": Kind("an allocation or a thread refused", 222,
                   lambda programs, folder, random, seed:
                       judge_memory(programs.program, folder, programs.library, random, seed), refuses=True),
}
