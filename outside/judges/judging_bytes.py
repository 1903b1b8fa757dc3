"""Texts with some bytes changed, through the program's check and through the reference's."""
from cases.mutating import base, changed
from judges.kind import Kind, program_by
from judges.running import demand, run_check, solve
from reference import bounding, checking

# How many triples of right texts are drawn before their bytes are changed.
BASES = 400
PLACES = ("instance", "certificate", "solution")


def judge_bytes(program, folder, random, name):
    """One of three texts changed; the program's check against the reference's. Answers what came of it."""
    texts = list(base(random.randrange(BASES)))
    at = PLACES.index(name)
    texts[at] = changed(random, texts[at])
    try:
        wanted = checking.check(*texts, bounding.least_by_routes)
    except bounding.TooLong:
        return "left out, too many routes"
    came = run_check(program, folder, *texts)
    demand(came == wanted, "check: %r, and %r is right" % (came, wanted))
    if wanted[2] == 3 and random.randrange(20) == 0:
        refused = solve(program, folder, texts[0], ["--turns", "1"])
        demand(refused == wanted + (b"", b""), "solve: %r, and %r is right" % (refused, wanted))
    return " ".join(word for word in (wanted[0] or wanted[1]).split() if word.isalpha() or word.endswith(":"))


KINDS = {
    "instance_bytes": Kind("an instance with some bytes changed, through check", 1500,
                           program_by(judge_bytes, "instance")),
    "certificate_bytes": Kind("a certificate with some bytes changed, through check", 1500,
                              program_by(judge_bytes, "certificate")),
    "solution_bytes": Kind("a plan with some bytes changed, through check", 1500, program_by(judge_bytes, "solution")),
}
