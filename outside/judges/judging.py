"""One run of the built program, of the kinds that have no file of their own."""
import os

from cases.random_texts import (LARGE, certificate_lines, certificate_of, instance_words, laid_out, mutated, plan_of,
                                solution_lines, solution_of, spoilt, tree_of)
from cases.rows import ROWS, status_of
from cases.spellings import SPELLINGS
from judges.kind import Kind, number_by, program_by
from judges.running import demand, run, run_check
from judges.turning import judge_turns_told
from reference import bounding, checking
from reference.building import build
from reference.instances import plan_cost, read
from reference.moving import descend
from reference.texts import TextFault, read_certificate, read_solution, shown


def judge_check(program, folder, random):
    """An instance, a certificate and often a solution, whole or with something wrong: the program's check against the
    reference's. Answers what came of it."""
    small = random.randrange(4) > 0
    words = instance_words(random, random.randint(1, 4) if small else random.randint(5, 12))
    text = laid_out(random, words)
    instance = read(text)
    lines = certificate_of(random, instance, tree_of(random, instance))
    found = read_certificate("".join(line + "\n" for line in lines).encode())
    # Routes that remember each customer are few enough to go through.
    least = bounding.least_by_routes if small and found.neighbours >= 8 else bounding.least_by_labels
    bound = checking.tree_bound(instance, found, least)
    routes = plan_of(random, instance)
    certificate, solution = checked_texts(random, instance, lines, bound, routes)
    if random.randrange(12) == 0:
        text = mutated(random, words)
    wanted = checking.check(text, certificate, solution, least)
    got = run_check(program, folder, text, certificate, solution)
    demand(got == wanted, "check: %r, and %r is right" % (got, wanted))
    return " ".join(word for word in (wanted[0] or wanted[1]).split() if word.isalpha() or word.endswith(":"))


def judge_turns(instruments, folder, random, count):
    """Descents and turns from a built plan. Answers what came of it."""
    text = laid_out(random, instance_words(random, count))
    instance, number = read(text), random.randint(0, 2)
    path = os.path.join(folder, "instance")
    with open(path, "wb") as file:
        file.write(text)
    told = run([instruments, "turns", path, str(number)])[0].decode().splitlines()
    routes, left = build(instance)
    if left:
        demand(told == ["no plan"], "turns without a plan: %r" % told)
        return "no plan"
    return judge_turns_told(instance, descend(instance, routes), number, told)


def checked_texts(random, instance, lines, bound, routes):
    """The certificate with this bound or near it, and a solution with its cost or near it, or none."""
    lines = list(lines)
    lines[4] = "BOUND " + shown(max(0, bound + random.choice([0] * 8 + [1, -1, 10])))
    if random.randrange(12) == 0:
        lines[1] += random.choice(["x", "T"])
    certificate = "".join(line + "\n" for line in lines).encode()
    if random.randrange(6) == 0:
        certificate = spoilt(random, lines)
    if random.randrange(4) == 0:
        return certificate, None
    cost = plan_cost(instance, [[i for i in route if i <= instance.count] for route in routes])
    told = solution_of(routes, max(0, cost + random.choice([0] * 8 + [1, -1])))
    if random.randrange(8) == 0:
        return certificate, spoilt(random, told)
    return certificate, "".join(line + "\n" for line in told).encode()


def judge_row(program, folder, number):
    """A row that was computed by hand. Answers the line's first words."""
    name, instance, certificate, solution, further, said = ROWS[number]
    got = run_check(program, folder, instance.encode(), certificate.encode(), solution.encode() or None, further)
    lines = ("", said + "\n") if said.startswith("vrptw") else (said + "\n", "")
    demand(got == lines + (status_of(said),), "%s: %r" % (name, got))
    return " ".join(word for word in said.split() if word.isalpha() or word.endswith(":"))


def echoed(instruments, folder, kind, text, said):
    """A text through the program of instruments: the fault that is said of it, or the text again where none is."""
    path = os.path.join(folder, kind)
    with open(path, "wb") as file:
        file.write(text)
    out, _, status = run([instruments, "echo", kind, path])
    wanted = (b"%s\n" % said.encode(), 1) if said else (text, 0)
    demand((out, status) == wanted, "%s %r, of which is said %r: %r" % (kind, text[:200], said, out[:80]))
    return said.split()[0] if said else "whole"


def said_of(reader, text):
    """The fault of the reference's reader, or none."""
    try:
        reader(text)
    except TextFault as fault:
        return str(fault)
    return ""


def judge_echo(instruments, folder, kind, text, reader):
    """A text: read and written again, or the fault of the reference's reader."""
    return echoed(instruments, folder, kind, text, said_of(reader, text))


def judge_spelling(instruments, folder, number):
    """A text that was made by hand: read and written again, or the fault that was found by hand."""
    kind, text, said = SPELLINGS[number]
    return "%s %s" % (kind, echoed(instruments, folder, kind, text.encode(), said))


def judge_text(programs, folder, random, kind):
    """A certificate or a solution with something wrong, by its reader alone."""
    if kind == "certificates":
        text = spoilt(random, certificate_lines(random))
        return judge_echo(programs.instruments, folder, "certificate", text, read_certificate)
    text = spoilt(random, solution_lines(random))
    return judge_echo(programs.instruments, folder, "solution", text, read_solution)


def judge_large(programs, folder, seed):
    """A certificate at a limit: read and written again, or the fault that was found by hand, which the reference's
    reader tells, too."""
    name, lines, said = LARGE[seed]
    text = "".join(line + "\n" for line in lines()).encode()
    found = said_of(read_certificate, text)
    demand(found == said, "%s: reference: %s" % (name, found))
    return "%s: %s" % (name, echoed(programs.instruments, folder, "certificate", text, said))


KINDS = {
    "rows": Kind("texts with what the check says of them, computed by hand", len(ROWS),
                 number_by(judge_row), is_fixed=True),
    "spellings": Kind("certificates and plans with faults found by hand, through instruments", len(SPELLINGS),
                      lambda programs, folder, random, seed: judge_spelling(programs.instruments, folder, seed),
                      is_fixed=True, of_library=True),
    "large": Kind("certificates at the limits of depth and leaves, through instruments", len(LARGE),
                  lambda programs, folder, random, seed: judge_large(programs, folder, seed),
                  is_fixed=True, of_library=True),
    "checks": Kind("instance, certificate and plan, right or with something wrong, through check", 60,
                   program_by(judge_check)),
    "turns": Kind("descents and turns of up to 8 customers, through instruments", 60,
                  lambda programs, folder, random, seed:
                      judge_turns(programs.instruments, folder, random, random.randint(1, 8)), of_library=True),
    "certificates": Kind("a certificate with something wrong, read and written by instruments", 400,
                         lambda programs, folder, random, seed: judge_text(programs, folder, random, "certificates"),
                         of_library=True),
    "solutions": Kind("a plan with something wrong, read and written by instruments", 400,
                      lambda programs, folder, random, seed: judge_text(programs, folder, random, "solutions"),
                      of_library=True),
}
