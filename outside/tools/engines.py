"""What runs the steps of a batch: this machine, GNU parallel on machines by ssh, or Slurm."""
import hashlib
import os
import re
import shlex
import shutil
import signal
import subprocess
import tempfile
import threading
from queue import Empty, Queue

from tools.batch_columns import MOST_JOBS, words
from tools.batching import ANSWERS, LIST, SHARED, found_tool
from tools.foreign import content, put
from tools.slurm import Waiting, slurm
from tools.tool import Refused, Text, count, spelled

ENGINES = ("here", "parallel", "slurm")
LOG = "engine.txt"
# The options that take any words.
TAKES_WORDS = "--slurm-options"
# How many seconds a program of others may take to end.
PATIENCE = 20
# ssh by one connection a machine, which stays open for some seconds behind its last use.
ONE_CONNECTION = """#!/bin/sh
exec %s -o ConnectTimeout=20 -o ControlMaster=auto -o ControlPersist=15 -o ControlPath=%s/%%C "$@"
"""
# A machine as --sshloginfile has it, behind its groups and its number of processors; and what stands for several.
LOGIN, SEVERAL = re.compile(r"(?:@[^/ ]*/)?(?:[0-9]+/)?(.*)\Z"), re.compile(r"[][,]|\.\.\Z|-\Z")
# What a machine is asked before steps go there, and how many seconds that may take.
ASKED = """[ "$(uname -sm)" = "Linux x86_64" ] || { echo "met $(uname -sm), wanted Linux x86_64"; exit 1; }
command -v rsync >/dev/null || { echo "met no rsync, wanted it (Debian's package rsync)"; exit 1; }
[ -w "$HOME" ] || { echo "met the home $HOME, wanted one that can be written"; exit 1; }"""
ANSWERS_IN = 60
# The machines that are used, and how the log tells of one that isn't.
USED, NOT_USED = "machines", "isn't used: "


def add_engine(found, what):
    """Adds the options that name an engine."""
    found.add_argument("--engine", choices=ENGINES, default="here", help="what runs the %s" % what)
    found.add_argument("--jobs", type=count(1, MOST_JOBS), metavar="N", help="how many %s run at once" % what)
    found.add_argument("--sshloginfile", metavar="FILE", help="the machines for GNU parallel")
    found.add_argument("--slurm-options", type=words, default=[], metavar="..", help="options of sbatch, as one word")


def demand_engine(found, given):
    """Refuses words of another engine."""
    if (given.engine == "parallel") != (given.sshloginfile is not None):
        found.error("--engine parallel and --sshloginfile FILE go together")
    if given.engine != "slurm" and (getattr(given, "wait", False) or given.slurm_options):
        found.error("--wait and --slurm-options go with --engine slurm")


class Here:
    """Runs steps on this machine, some at once."""

    def __init__(self, into, names, count):
        self.into, self.rest, self.children, self.is_stopped = into, Queue(), set(), False
        for name in names:
            self.rest.put(name)
        self.workers = [threading.Thread(target=self.work, daemon=True) for _ in range(count)]
        for worker in self.workers:
            worker.start()

    def work(self):
        while not self.is_stopped:
            try:
                name = self.rest.get_nowait()
            except Empty:
                return
            # A group of its own, so that the program ends with its step.
            child = subprocess.Popen(["./step", name], cwd=self.into, start_new_session=True)
            self.children.add(child)
            if self.is_stopped:
                end_group(child, signal.SIGKILL)
            child.wait()
            self.children.discard(child)

    def is_running(self):
        return any(worker.is_alive() for worker in self.workers)

    def stop(self):
        self.is_stopped = True
        for child in list(self.children):
            # A step in rounds would else count as done.
            end_group(child, signal.SIGKILL)


class Connections:
    """A folder with an ssh of one connection a machine, which comes before that of the path."""

    def __init__(self):
        self.folder = tempfile.mkdtemp(prefix="vrptw_ssh_")
        own, ssh = os.path.join(self.folder, "ssh"), shutil.which("ssh")
        if ssh:
            put(own, (ONE_CONNECTION % (shlex.quote(ssh), shlex.quote(self.folder))).encode())
            os.chmod(own, 0o700)
        self.environment = {**os.environ, "PATH": self.folder + os.pathsep + os.environ.get("PATH", os.defpath)}

    def asked(self, login):
        """Asks a machine whether steps can go there: the process, and the file of what it says."""
        told = tempfile.TemporaryFile(dir=self.folder)
        command = "%s %s" % (login if " " in login else "ssh " + login,
                             shlex.quote("exec sh -c " + shlex.quote(ASKED)))
        return subprocess.Popen(command, shell=True, stdin=subprocess.DEVNULL, stdout=told, stderr=told,
                                start_new_session=True, env=self.environment), told

    def end(self):
        shutil.rmtree(self.folder, ignore_errors=True)


class Command:
    """A program of others that runs the steps; what it says is kept in a file, no line twice."""

    def __init__(self, into, words, connections):
        self.log, self.connections = os.path.join(into, LOG), connections
        with open(self.log, "ab") as log:
            self.child = subprocess.Popen(words, cwd=into, stdin=subprocess.DEVNULL, stdout=log, stderr=log,
                                          start_new_session=True, env=connections.environment)

    def is_running(self):
        if self.child.poll() is None:
            return True
        self.end()
        return False

    def end(self):
        self.connections.end()
        lines = content(self.log).split(b"\n")
        put(self.log, b"".join(line + b"\n" for line in dict.fromkeys(lines) if line))

    def stop(self):
        end_group(self.child, signal.SIGTERM)
        try:
            self.child.wait(PATIENCE)
        except subprocess.TimeoutExpired:
            end_group(self.child, signal.SIGKILL)
            self.child.wait()
        self.end()


def end_group(child, number):
    """Ends a process that was started here, and those that it started."""
    try:
        os.killpg(child.pid, number)
    except ProcessLookupError:
        pass


def machines(path):
    """The lines of machines. Refuses this one without ssh, to which GNU parallel brings no files."""
    found = list(Text(path).filled())
    for line, told in found:
        if told.rpartition("/")[2] == ":":
            raise Refused("%s: line %d: met \"%s\", wanted a machine by ssh, as localhost" % (path, line, told))
    return found


def said_by(child, told):
    """Why a machine that was asked isn't used, in a line; nothing where it is."""
    try:
        status = child.wait(ANSWERS_IN)
    except subprocess.TimeoutExpired:
        end_group(child, signal.SIGKILL)
        status = child.wait()
    told.seek(0)
    said = " ".join(told.read().decode(errors="replace").split())
    return (said or "no answer (status %d)" % status) if status else ""


def usable(path, into, connections):
    """Asks all machines at once, and puts those that can be used into the folder; answers how many they are. What
    another one said stands in the log, in place of what one said before."""
    asked = [(line, told, LOGIN.match(told)[1]) for line, told in machines(path)]
    asked = [(line, told, login, None if SEVERAL.search(login) else connections.asked(login))
             for line, told, login in asked]
    used, log = [], [line for line in content(os.path.join(into, LOG)).split(b"\n") if line]
    log = [line for line in log if NOT_USED.encode() not in line]
    for line, told, login, process in asked:
        said = said_by(*process) if process else ""
        used += [] if said else [told]
        log += [("machine %s (line %d) %s%s" % (login.split(" ")[-1], line, NOT_USED, said)).encode()] if said else []
    put(os.path.join(into, LOG), b"".join(line + b"\n" for line in log))
    put(os.path.join(into, USED), "".join(told + "\n" for told in used).encode())
    if not used:
        connections.end()
        raise Refused("%s: met no machine that can be used: %s" % (path, "; ".join(not_used(into))))
    return len(used)


def not_used(into):
    """What the log says of machines that aren't used."""
    lines = content(os.path.join(into, LOG)).decode(errors="replace").split("\n")
    return [spelled(line) for line in lines if NOT_USED in line]


def folder_there(into):
    """The folder of this batch in the user's home on each machine of GNU parallel."""
    return "vrptw_batch_" + hashlib.sha256((os.uname().nodename + os.path.abspath(into)).encode()).hexdigest()[:12]


def parallel(into, names, given, shared):
    """GNU parallel: to each machine go the files that steps share and the instance, and back come the answers. What
    was brought goes at the end. A step that fails on a machine goes to another one."""
    found_tool("parallel", "parallel")
    found_tool("rsync", "rsync")
    connections = Connections()
    count = usable(given.sshloginfile, into, connections)
    put(os.path.join(into, LIST), "".join(name + "\n" for name in names).encode())
    words = ["parallel", "--will-cite", "--retries", str(count), "--sshloginfile",
             os.path.join(os.path.abspath(into), USED), "--workdir", folder_there(into)]
    for name in shared:
        words += ["--basefile", name]
    words += ["--transferfile", "{}/instance.txt", "--cleanup"]
    for name in ANSWERS:
        words += ["--return", "{}/" + name]
    return Command(into, words + (["--jobs", str(given.jobs)] if given.jobs else []) + ["./step", "{}", "::::", LIST],
                   connections)


def started(into, names, given, shared=SHARED, is_kept=True):
    """The engine of these steps, and what is noted. Jobs of Slurm that aren't kept end where the engine is stopped."""
    if not names:
        return Waiting(False), []
    if given.engine == "slurm":
        return slurm(into, names, given, is_kept)
    if given.engine == "parallel":
        return parallel(into, names, given, shared), []
    return Here(into, names, given.jobs or max(1, (os.cpu_count() or 1) // 4)), []
