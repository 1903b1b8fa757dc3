"""Instances with something wrong, through solve and through the reference's reader."""
from cases.random_texts import instance_words, mutated
from judges.kind import Kind, program_by
from judges.running import demand, solve
from reference.instances import Fault, read


def judge_refusal(program, folder, random):
    """A text with something wrong: the program's reader against the reference's. Answers what came of it."""
    text = mutated(random, instance_words(random, random.randint(1, 5)))
    out, errors, status, solution, certificate = solve(program, folder, text)
    try:
        read(text)
    except Fault as fault:
        demand((out, errors, status) == ("", "vrptw: instance: %s\n" % fault, 3), "refusal %s: %r" % (fault, errors))
        demand((solution, certificate) == (b"", b""), "files after a refusal")
        return str(fault).split()[0]
    demand(status in (0, 1), "an instance was refused: %r" % errors)
    return "whole"


KINDS = {
    "refusals": Kind("an instance with something wrong: the fault, and both files empty", 300,
                     program_by(judge_refusal)),
}
