"""One run of `prove` on few customers, of whose parts one is killed, stopped or spoilt at a drawn moment: what stands
is right at each moment and never worse than before, and the other parts lose nothing. Now and then a signal comes while
a round is joined, which that round outlives, or two signals, which is told."""
import os
import subprocess
import time

from cases.grown_trees import leaf_count
from judges.judging_breaks import demand_no_less, left_running, standing
from judges.judging_joins import text_of, whole_of
from judges.kind import Kind, program_by
from judges.running import demand, got, put
from reference import bounding, checking
from reference.optimum import least_cost
from reference.set_texts import read_either
from tools.places import OUTSIDE
from tools.proving import LEAVES
from tools.proving_rounds import TABLE
from vrptw import verdict_of

# How many seconds a command may take at most, and how long it works unless the instance is closed or a signal comes.
LONGEST, SECONDS, SIGNALLED = 120, (4, 8), 60
# What is done to one part: it is killed behind some time, or does without its program, or what it wrote is spoilt.
WAYS = {
    "killed": 'sleep %(delay).3f; kill -9 $child; kill -9 $$',
    "killed alone": 'sleep %(delay).3f; kill -9 $child; wait $child; exit $?',
    "stopped": 'kill -9 $child; kill -STOP $$',
    "slow": 'kill -9 $child; exec sleep 600',
    "without a word": 'wait $child; exit 0',
    "at fault": 'kill -9 $child; wait; : >"$4"; echo "vrptw: memory" >&2; exit 4',
    "empty": 'wait $child; : >"$3"; : >"$4"; exit 1',
    "no text": 'wait $child; rm -f "$3" "$4"; exit 1',
    "forged bound": 'wait $child; sed -i "s/^BOUND .*/BOUND 99999.0/" "$4"; exit 1',
    "forged cost": 'wait $child; sed -i "s/^Cost .*/Cost 0.1/" "$3"; exit 1',
    "other prices": 'wait $child; sed -i "s/^P 0/P 7/; s/^P -/P /" "$4"; exit 1',
    "other name": 'wait $child; sed -i "s/^INSTANCE ./INSTANCE xx/" "$4"; exit 1',
    "other arcs": 'wait $child; sed -i "s/^S \\([0-9]*\\) \\([0-9]*\\)$/S \\2 \\1/" "$4"; exit 1',
    "cut": 'wait $child; head -c %(size)d "$4" >cut; mv cut "$4"; exit 1',
    "folders": 'mkdir plan.txt errors.txt',
    "boast": 'wait $child; printf "vrptw: 1%%0500d %%%% of the turns\\n" 0 >&2; exit 1',
    "noise": 'wait $child; head -c %(size)d /dev/urandom >"$4"; cp "$4" "$3"; exit 1',
}
# What comes while a round is joined, once: nothing, a signal, or two of them.
JOINING = {
    "": ':',
    "a signal": 'kill -INT $PPID',
    "two signals": 'kill -INT $PPID; sleep 2; kill -INT $PPID; sleep 5',
}
# The program in the place of ours: it counts the parts, keeps what those that are left alone have written, does
# something to one of them, and when it checks a joined text for the first time.
PROGRAM = """#!/bin/sh
case "$*" in check*/joined/*) mkdir '%(here)s'/joining 2>/dev/null && { %(joining)s; } ;; esac
case "$*" in solve*\\ --part\\ *) ;; *) exec '%(program)s' "$@" ;; esac
number=1
until mkdir '%(here)s'/call_$number 2>/dev/null; do number=$((number + 1)); done
'%(program)s' "$@" &
child=$!
trap 'kill -9 $child; exit 143' TERM
if [ $number = %(chosen)d ]; then %(way)s; fi
wait $child
status=$?
cp "$4" '%(here)s'/kept_"$(basename "$PWD")" 2>/dev/null
exit $status
"""


def zeroed(random, tree, has_sets):
    """A tree with prices of zero at some leaves."""
    if tree[0] == "S":
        return ("S", tree[1], *(zeroed(random, child, has_sets) for child in tree[2:]))
    zero = ("P", [0] * len(tree[1]))
    return tree if random.randrange(3) == 0 else zero + ((),) if has_sets else zero


def begun(program, folder, random, least):
    """An instance, its text, and a certificate of some leaves that are mostly open, with a plan."""
    while True:
        instance, text, whole, plan = whole_of(program, folder, random)
        if leaf_count(whole.tree) < least or not plan:
            continue
        whole.tree = zeroed(random, whole.tree, b"VRPTW-SETS" in text_of(whole))
        whole.version = 2
        whole.bound = checking.tree_bound(instance, whole, bounding.least_by_labels)
        return instance, text, text_of(whole), plan


def spoiler(program, folder, random, parts):
    """The path of the program that does something to one part, what that is, and what comes while parts are joined."""
    way, path = random.choice(sorted(WAYS)), os.path.join(folder, "spoiler")
    joining = random.choice(["", ""] + sorted(JOINING))
    told = WAYS[way] % {"delay": random.choice([0, 0.01, 0.05, 0.2, random.random()]), "size": random.randrange(2000)}
    put(path, (PROGRAM % {"program": program, "here": folder, "way": told, "joining": JOINING[joining],
                          "chosen": random.randint(1, 2 * parts)}).encode())
    os.chmod(path, 0o755)
    return path, way, joining


def is_within(part, whole):
    """Whether each split of one tree stands in another one."""
    return part[0] == "P" or whole[0] == "S" and part[1] == whole[1] and all(map(is_within, part[2:], whole[2:]))


def watched(program, folder, words, into):
    """What came of a command, while what stands in its folder is judged again and again."""
    before, until = standing(program, folder, into), time.monotonic() + LONGEST
    with subprocess.Popen(words, stdin=subprocess.DEVNULL, stdout=subprocess.PIPE, stderr=subprocess.PIPE) as child:
        while child.poll() is None and time.monotonic() < until:
            now = standing(program, folder, into)
            demand_no_less(before, now, False)
            before = now
            time.sleep(0.02)
        child.kill()
        out, errors = child.communicate()
    demand(time.monotonic() < until, "prove didn't end: %r" % errors)
    now = standing(program, folder, into)
    demand_no_less(before, now, False)
    return out.decode(), errors.decode(), child.returncode, now


def demand_kept(folder, into, rounds):
    """What the parts that were left alone have grown in so many rounds stands in the tree."""
    whole = read_either(got(os.path.join(into, "certificate.txt"))).tree
    for name in sorted(os.listdir(folder)):
        text = got(os.path.join(folder, name)) if name.startswith("kept_r") else b""
        if text and int(name[len("kept_r"):].split("@")[0]) <= rounds:
            demand(is_within(read_either(text).tree, whole), "what %s has grown is lost" % name)


def rounds_of(into):
    """The rows of all rounds, each as its cells by the heading."""
    lines = (got(os.path.join(into, TABLE)) or b"").decode().split("\n")[:-1]
    return [dict(zip(lines[0].split(","), line.split(","))) for line in lines[1:]]


def demand_first(rows, leaves, parts, seconds):
    """The first round goes on from a tree that stands, by a turn for each leaf of a part, or fewer in a short time."""
    least = 2 if seconds == SIGNALLED else 1
    demand(not rows or rows[0]["parts"] == str(parts) and least <= int(rows[0]["turns"]) <= leaves // parts,
           "the first round of %d leaves is %s" % (leaves, rows[:1]))


def demand_joined(folder, rows, joining, errors):
    """Behind a signal the round that was joined stands, with the parts that had ended; behind two of them it doesn't,
    and that is told."""
    came = [int(name[len("kept_r"):].split("@")[0]) for name in os.listdir(folder) if name.startswith("kept_r")]
    is_lost = "the work of all parts is lost" in errors
    demand(is_lost == (joining == "two signals"), "%s: %r" % (joining, errors))
    if joining == "a signal":
        demand(len(rows) >= max(came, default=0) and all(int(row["came"]) for row in rows[-1:]),
               "a signal, and round %s is lost: %r" % (came, rows[-1:]))
    elif is_lost:
        demand(len(rows) < max(came, default=1), "two signals, and round %s stands" % came)


def judge_end(instance, came):
    """The line at the end is what stands, and says nothing that isn't so; answers whether the instance is closed."""
    out, errors, status, now = came
    kind, cost, bound = verdict_of(out.split("\n")[0])
    least = least_cost(instance)
    demand((kind, cost, bound) == now[1:] and "Traceback" not in errors, "%r, %r, and %r stands" % (
        out, errors, now[1:]))
    demand(bound <= least <= cost and status == (0 if kind == "BEST" else 1), "%r, and %s is the least cost" % (
        out, least))
    return kind == "BEST"


def judge_proof(program, folder, random):
    """A proof with one part that does wrong, and the same words again."""
    parts, into = random.randint(2, 3), os.path.join(folder, "closing")
    instance, text, proof, plan = begun(program, folder, random, LEAVES * parts)
    os.mkdir(into)
    for name, held in (("instance.txt", text), ("plan.txt", plan), ("certificate.txt", proof)):
        put(os.path.join(into, name), held)
    path, way, joining = spoiler(program, folder, random, parts)
    seconds = SIGNALLED if joining else random.randint(*SECONDS)
    words = [os.path.join(OUTSIDE, "prove"), os.path.join(into, "instance.txt"), "--into", into, "--parts", str(parts),
             "--jobs", "2", "--round", "1", "--seconds", str(seconds), "--sets", str(random.choice([0, 20])),
             "--program", path]
    came = watched(program, folder, words, into)
    is_closed = judge_end(instance, came)
    rows, number = got(os.path.join(into, TABLE)) or b"", len(rounds_of(into))
    demand_first(rounds_of(into), proof.count(b"\nP "), parts, seconds)
    if os.path.isdir(os.path.join(folder, "joining")):
        demand_joined(folder, rounds_of(into), joining, came[1])
    # A part of the last round may have come when the time was over.
    demand_kept(folder, into, number - 1)
    if is_closed:
        _, errors, status, _ = watched(program, folder, words, into)
        demand((status, errors, got(os.path.join(into, TABLE))) == (0, "", rows), "again: %d, %r" % (status, errors))
    until = time.monotonic() + 5
    while left_running(into) and time.monotonic() < until:
        time.sleep(0.05)
    demand(not left_running(into), "left running: %s" % left_running(into))
    return "%s%s: %s" % (way, joining and ", then %s" % joining, "closed" if is_closed else "right")


KINDS = {
    "proofs": Kind("few customers by prove, one part killed or spoilt: right, never worse, all else kept", 4,
                   program_by(judge_proof)),
}
