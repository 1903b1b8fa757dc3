"""What the trials of the engines of batch have in common: six instances by two seeds, a run that is broken off and goes
on, and the processes that a trial starts."""
import os
import shutil
import signal
import socket
import subprocess
import tempfile
import time

from tools.judged import add_program, demand_program, program_of
from tools.places import OUTSIDE, TOP
from tools.proving_rounds import TABLE
from tools.tool import Refused, Words

# The files whose first customers are the instances, and how many customers each has.
SOURCES, COUNTS = ("c1_25", "rc1_100"), (10, 18, 24)
# Where the header of an example ends, in lines: behind it stands the depot's row.
HEADER = 6
# So many turns of so few customers take a second or some; with two seeds there are twelve steps.
SETS = ["--options", "--turns 20000 --searchers 1 --bounders 1", "--seeds", "1,2"]
LONGEST = 300
# The folder in which an instance is closed.
PROOF = "proof"


def stop_with(words):
    """Ends the trial, whose processes end with it."""
    raise Refused(words)


def words_of(tool, told):
    """The words of a trial."""
    found = Words(tool, told)
    found.add_argument("--install", action="store_true", help="has apt-get install what isn't there")
    add_program(found)
    return found


def needed(installs, programs, packages):
    """Installs what isn't there where that is asked for, else says what is lacking."""
    paths = os.environ["PATH"] + ":/usr/sbin:/sbin"
    os.environ["PATH"] = paths
    lacks = [program for program in programs if shutil.which(program) is None]
    if lacks and not installs:
        stop_with("%s isn't there; --install has apt-get install %s" % (", ".join(lacks), " ".join(packages)))
    if lacks:
        print("installs %s by apt-get" % " ".join(packages), flush=True)
        # The packages' own services aren't started.
        environment = {**os.environ, "DEBIAN_FRONTEND": "noninteractive", "RUNLEVEL": "1"}
        words = ["apt-get", "install", "-y", "--no-install-recommends", *packages]
        if shutil.which(words[0]) is None or subprocess.run(words, env=environment,
                                                            stdout=subprocess.DEVNULL).returncode:
            stop_with("apt-get didn't install %s" % " ".join(packages))


def program_given(words, programs, packages):
    """The program that the words of a trial name, or that of here, once all is there that the trial needs."""
    given = words.parse_args()
    if given.program is not None:
        demand_program(given.program)
    needed(given.install, programs, packages)
    return program_of(given)


def instances(folder):
    """Six instances: the first customers of two examples."""
    os.makedirs(folder)
    for name in SOURCES:
        with open(os.path.join(TOP, "examples", name + ".txt"), encoding="ascii") as file:
            lines = file.read().split("\n")
        for count in COUNTS:
            with open(os.path.join(folder, "%s_%d.txt" % (name, count)), "w", encoding="ascii") as file:
                file.write("\n".join(lines[:HEADER + 1 + count]) + "\n")


def free_port():
    with socket.socket() as found:
        found.bind(("127.0.0.1", 0))
        return found.getsockname()[1]


def wait_for(holds, what, seconds=30):
    """Waits until something holds."""
    ends = time.time() + seconds
    while not holds():
        if time.time() > ends:
            stop_with("%s didn't come within %d s" % (what, seconds))
        time.sleep(0.1)


def answers_at(port):
    """Whether something listens at a port of this machine."""
    with socket.socket() as found:
        return found.connect_ex(("127.0.0.1", port)) == 0


class Services:
    """Processes that a trial starts, and ends by their ids, in the other order."""

    def __init__(self, folder):
        self.folder, self.children = folder, []

    def start(self, name, words, environment=None):
        with open(os.path.join(self.folder, name + ".log"), "wb") as log:
            child = subprocess.Popen(words, stdin=subprocess.DEVNULL, stdout=log, stderr=log,
                                     env={**os.environ, **(environment or {})})
        self.children.append((name, child))
        print("started %s, process %d" % (name, child.pid), flush=True)

    def demand_running(self):
        """Ends the trial where one of the processes has ended, with what it said last."""
        for name, child in self.children:
            if child.poll() is not None:
                with open(os.path.join(self.folder, name + ".log"), errors="replace") as log:
                    stop_with("%s ended with status %d: %s" % (name, child.returncode, log.read()[-2000:]))

    def stop(self):
        for name, child in reversed(self.children):
            if child.poll() is None:
                os.kill(child.pid, signal.SIGTERM)
                try:
                    child.wait(20)
                except subprocess.TimeoutExpired:
                    os.kill(child.pid, signal.SIGKILL)
                    child.wait()
            print("ended %s, process %d" % (name, child.pid), flush=True)


def done_in(into):
    """When each step was done, by its name."""
    found = {}
    for name in os.listdir(into) if os.path.isdir(into) else []:
        path = os.path.join(into, name, "done.txt")
        if os.path.exists(path):
            found[name] = os.stat(path).st_mtime_ns
    return found


def broken_off(words, into):
    """Begins a batch, and ends it by its id as soon as some steps are done."""
    child = subprocess.Popen(words, stdout=subprocess.DEVNULL)
    wait_for(lambda: len(done_in(into)) >= 3 or child.poll() is not None, "three steps", LONGEST)
    if child.poll() is not None:
        log = os.path.join(into, "engine.txt")
        said = open(log, errors="replace").read()[-2000:] if os.path.exists(log) else ""
        stop_with("the batch ended before it was broken off, with status %d: %s" % (child.returncode, said))
    os.kill(child.pid, signal.SIGTERM)
    child.wait(60)


def goes_on(words, into):
    """The same words again: what was done stays, the rest is done, and the table has all."""
    before = done_in(into)
    print("broken off after %d of 12 steps" % len(before), flush=True)
    came = subprocess.run(words, stdout=subprocess.PIPE, timeout=LONGEST)
    print(came.stdout.decode(), end="", flush=True)
    after = done_in(into)
    again = [name for name in before if after.get(name) != before[name]]
    if came.returncode or len(after) != 12 or again:
        stop_with("status %d, %d of 12 done, done again: %s" % (came.returncode, len(after), again))
    came = subprocess.run(words, stdout=subprocess.PIPE, timeout=LONGEST)
    if came.returncode or done_in(into) != after:
        stop_with("a third call did something")


def closes(program, folder, further):
    """One of the instances, which takes some hundred leaves, by prove with an engine: closed, by parts in one round at
    least."""
    into = os.path.join(folder, PROOF)
    words = [os.path.join(OUTSIDE, "prove"), os.path.join(folder, "instances", "c1_25_18.txt"), "--into", into,
             "--parts", "2", "--round", "10", "--seconds", str(LONGEST), "--sets", "0", "--program", program]
    came = subprocess.run(words + further, stdout=subprocess.PIPE, timeout=2 * LONGEST)
    print(came.stdout.decode(), end="", flush=True)
    with open(os.path.join(into, TABLE), encoding="ascii") as file:
        rows = [line.split(",") for line in file.read().split("\n")[1:-1]]
    if came.returncode or not any(row[1] == row[2] == "2" for row in rows):
        stop_with("prove ended with status %d, and rounds of %r" % (came.returncode, rows))
    print("one instance closed in parts: right", flush=True)


def trial(work, **given):
    """Makes a trial in a folder of its own, whose processes end with it."""
    folder = tempfile.mkdtemp(prefix="vrptw_trial_", **given)
    services = Services(folder)
    try:
        instances(os.path.join(folder, "instances"))
        work(folder, services)
        print("twelve steps, broken off and gone on: right", flush=True)
    finally:
        services.stop()
        shutil.rmtree(folder, ignore_errors=True)
