"""The commands of the page on many instances, run one after the other in a folder: what they say is what the page
shows, but for seconds, leaves, gaps and the order in which runs end. Programs of the same names stand for GNU
parallel, ssh, rsync and Slurm, and small instances for the larger ones."""
import os
import re
import shutil

from cases.option_cases import FAKES
from judges.kind import Kind
from judges.running import demand, put, run, shown
from judges.tutorial import commands, held
from tools.places import TOP

ENGINES = ("sbatch", "squeue", "parallel", "rsync", "ssh")
# The files of the page, and those that stand for them.
INSTANCES = {"bench/instances/c1_25.txt": "bench/instances/c1_25.txt", "bench/instances/r1_25.txt":
             "bench/instances/r1_25.txt", "bench/instances/rc1_25.txt": "bench/instances/rc1_25.txt",
             "bench/instances/c1_50.txt": "examples/c1_20.txt", "bench/instances/rc2_100.txt": "examples/c1_20.txt"}
# Columns and words that differ from run to run.
DIFFERING = ("leaves", "seconds", "met at")
WORDS = ((re.compile(r"\b[0-9]+ of ([0-9]+): "), r"\1: "), (re.compile(r"\bjob [0-9]+"), "job"),
         (re.compile(r"\b[0-9.]+ s\b"), "s"), (re.compile(r"\b[0-9.]+ %"), "%"))
# The page's own end of an output that is left out, and the file that another command writes.
LEFT_OUT, MACHINES = "...", "cat machines"


def fitted_out(program, folder):
    """Puts into the folder what the commands need, with programs that stand for others on the path."""
    for name in ("outside", "examples"):
        os.symlink(os.path.join(TOP, name), os.path.join(folder, name))
    os.makedirs(os.path.join(folder, "bench", "instances"))
    for name, source in INSTANCES.items():
        shutil.copy(os.path.join(TOP, source), os.path.join(folder, name))
    os.mkdir(os.path.join(folder, "engines"))
    for name in ENGINES:
        path = os.path.join(folder, "engines", name)
        put(path, ("#!/bin/bash\n%s\n" % FAKES[name]).encode())
        os.chmod(path, 0o755)
    os.symlink(os.path.abspath(program), os.path.join(folder, "program"))


def said(folder, command):
    """What a command says on both streams, and its status; tools of ours take the program that is judged."""
    if command.startswith("outside/"):
        command += " --program ./program"
    put(os.path.join(folder, "command"), ("cd '%s'\nexec 2>&1\nPATH='%s/engines':\"$PATH\"\n%s\n" % (
        folder, folder, command)).encode())
    out, _, status = run(["/bin/bash", os.path.join(folder, "command")])
    return out.decode(), status


def settled(output):
    """The lines of an output without what differs from run to run, in order; with each its cells."""
    found, heading = [], []
    for line in output.splitlines():
        cells = re.split(" {2,}", line.strip())
        heading = cells if cells[0] == "instance" else heading
        if len(cells) == len(heading):
            cells = [cell for name, cell in zip(heading, cells) if name not in DIFFERING]
        line = "  ".join(cells)
        for word, place in WORDS:
            line = word.sub(place, line)
        found.append(line)
    return sorted(found)


def judge_many(program, folder):
    """Each command ends well, and says what the page shows."""
    fitted_out(program, folder)
    found = list(commands(held("many.md")))
    demand(len(found) >= 8, "the page has %d commands" % len(found))
    for command, told in found:
        if command == MACHINES:
            put(os.path.join(folder, "machines"), told.encode())
            continue
        output, status = said(folder, command)
        is_part = told == "" or LEFT_OUT in told.splitlines()
        right = [line for line in settled(told) if line != LEFT_OUT]
        came = settled(output)
        fits = set(right) <= set(came) if is_part else right == came
        demand(status == 0 and fits, "$ %s: status %d, %r" % (command, status, output))
    return "%d commands" % len(found)


KINDS = {
    "many": Kind("each command of docs/many.md, by programs that stand for GNU parallel and Slurm", 1,
                 lambda programs, folder, random, seed: judge_many(programs.program, folder), is_fixed=True),
}
