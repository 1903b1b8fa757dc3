"""Rounds of runs of all kinds, in processes, and what comes of them."""
import os
import shutil
import tempfile
import time
from collections import Counter
from concurrent.futures import ProcessPoolExecutor

from judges.kinds import KINDS, Programs, judge
from judges.refusing import build
from tools.places import TOP

# Where the files of a run that doesn't agree stay.
KEPT = os.path.join(TOP, "out", "outside")


def one(task):
    """A run in a folder of its own, in memory where there is such a place; the files of a disagreement are kept."""
    programs, folder, seed, kind = task
    own = tempfile.mkdtemp(dir=folder)
    agrees, found = judge(programs, own, seed, kind)
    if agrees:
        shutil.rmtree(own)
        return kind, seed, None, agrees, found
    kept = os.path.join(KEPT, "%s_%d" % (kind, seed))
    shutil.rmtree(kept, ignore_errors=True)
    # Folders and pipes that a case made aren't kept.
    shutil.copytree(own, kept, ignore=lambda at, names: [
        name for name in names if not os.path.isfile(os.path.join(at, name))])
    shutil.rmtree(own)
    return kind, seed, kept, agrees, found


def rounds(given, began):
    """Lists of kinds and seeds: one list where the runs are counted, else one after the other until the time is
    over."""
    fixed = [(kind, number) for kind in given.kinds if KINDS[kind].is_fixed for number in range(KINDS[kind].runs)]
    drawn = [kind for kind in given.kinds if not KINDS[kind].is_fixed]
    if given.runs is not None or not drawn:
        last = given.seed + (given.runs or 0)
        yield fixed + [(kind, seed) for kind in drawn for seed in range(given.seed, last)]
        return
    yield fixed
    number = 0
    while time.time() - began < 60 * given.minutes:
        yield [(kind, given.seed + number * KINDS[kind].runs + k) for kind in drawn for k in range(KINDS[kind].runs)]
        number += 1


def judge_rounds(given, programs, folder):
    """Counts of what came of the runs, and how many don't agree."""
    began, wrong, came = time.time(), 0, Counter()
    with ProcessPoolExecutor(given.jobs) as pool:
        for tasks in rounds(given, began):
            whole = [(programs, folder, seed, kind) for kind, seed in tasks]
            for kind, seed, kept, agrees, found in pool.map(one, whole, chunksize=8):
                came[kind, found if agrees else "doesn't agree"] += 1
                if not agrees:
                    wrong += 1
                    print("%s, seed %d: %s (%s)" % (kind, seed, found, kept), flush=True)
    for (kind, found), count in sorted(came.items()):
        print("%s: %s %d" % (kind, found, count))
    print("%d runs, %d disagreements, %.0f s" % (sum(came.values()), wrong, time.time() - began))
    return wrong


def judge_all(given):
    """Judges what the options say. Answers how many runs don't agree."""
    os.makedirs(KEPT, exist_ok=True)
    in_memory = "/dev/shm" if os.access("/dev/shm", os.W_OK) else None
    with tempfile.TemporaryDirectory(prefix="outside_", dir=in_memory) as folder:
        # What the tools keep for this user goes, too.
        os.environ["XDG_STATE_HOME"] = os.path.join(folder, "state")
        library = build(folder) if any(KINDS[kind].refuses for kind in given.kinds) else None
        return judge_rounds(given, Programs(given.program, given.instruments, library), folder)
