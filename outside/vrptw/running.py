"""Runs of the program: which one it is, texts that it reads and writes in memory, and a run that may be broken off."""
from __future__ import annotations

import fcntl
import functools
import os
import re
import select
import shutil
import signal
import subprocess
import time
from dataclasses import dataclass
from typing import Callable, Mapping, Optional, Sequence

from .answers import Progress, in_tenths
from .faults import Fault

try:
    import ctypes
except ImportError:
    # Some Pythons have none within a subinterpreter.
    ctypes = None  # type: ignore[assignment]

HERE = os.path.dirname(os.path.realpath(__file__))
# The folders that have the launcher with `release` and `outside` where this one stands in a repository or in what `make
# install` made, and in a wheel's.
HOMES = (os.path.dirname(os.path.dirname(HERE)), os.path.join(os.path.dirname(HERE), "vrptw_home"))
RELEASED = "vrptw-x86_64-linux"
# How long nothing is looked at while the program runs, in seconds, and how much is read at once.
OFTEN, PORTION = 0.1, 1 << 16
PROGRESS = re.compile(r"vrptw: ([0-9]+) % of the turns, (?:no plan|cost ([0-9.]+)), bound ([0-9.]+)")


def home() -> Optional[str]:
    """The folder that has the launcher, `release` and `outside`; None beside a copy of this folder alone."""
    return next((top for top in HOMES if os.access(os.path.join(top, "release", "which"), os.X_OK)), None)


@functools.lru_cache(maxsize=None)
def program_here() -> str:
    """The program that the launcher of here runs, by the launcher's rule. Where there is no launcher, the first of the
    released file without it, one named `vrptw` in this folder, the released file beside this folder, and `vrptw` on the
    path. Raises `Fault` where the program has to be built first."""
    top = home()
    if top is None:
        places = [os.path.join(HOMES[0], "release", RELEASED), os.path.join(HERE, "vrptw"),
                  os.path.join(os.path.dirname(HERE), RELEASED)]
        near = [path for path in places if os.path.isfile(path) and os.access(path, os.X_OK)]
        return near[0] if near else shutil.which("vrptw") or places[0]
    came = Run([os.path.join(top, "release", "which")]).ended()
    if came.status:
        raise Fault(came.fault, None)
    return os.fsdecode(came.out).rstrip("\n")


try:
    PRCTL: Optional[Callable[[int, int], object]] = ctypes.CDLL(None).prctl
except (AttributeError, OSError):
    PRCTL = None
# The call of Linux by which a process gets a signal when the thread that started it ends.
PR_SET_PDEATHSIG = 1


def end_with_parent(parent: Optional[int] = None) -> None:
    """In a process that was just started: it ends when its parent does, where the system has that, and by no signal
    of a terminal before. Where the parent's number is given, at once if it has ended already."""
    if PRCTL is not None:
        PRCTL(PR_SET_PDEATHSIG, int(signal.SIGKILL))
    if parent not in (None, os.getppid()):
        os._exit(1)
    signal.signal(signal.SIGINT, signal.SIG_IGN)
    for number in (signal.SIGTERM, signal.SIGHUP):
        signal.signal(number, signal.SIG_DFL)


class Memory:
    """Files in memory by which a run reads and writes texts, so that nothing stands on a disk."""

    def __init__(self) -> None:
        self.streams: list[int] = []

    def __enter__(self) -> Memory:
        return self

    def __exit__(self, *fault: object) -> None:
        for stream in self.streams:
            os.close(stream)

    def put(self, text: bytes) -> str:
        """A file with a text: the path by which a process finds it that has it open."""
        first = os.memfd_create("text")
        # Not in the place of a standard stream that is closed.
        self.streams.append(fcntl.fcntl(first, fcntl.F_DUPFD_CLOEXEC, 3))
        with open(first, "wb") as file:
            file.write(text)
        return "/proc/self/fd/%d" % self.streams[-1]

    def held(self, path: str) -> bytes:
        """What a file holds now."""
        stream = int(path.rpartition("/")[2])
        return os.pread(stream, os.fstat(stream).st_size, 0)


@dataclass(frozen=True)
class Ran:
    """What came of a run: its status, None where it was broken off, below 0 the signal that ended it; what it wrote
    on both streams; how many seconds it took."""

    status: Optional[int]
    out: bytes
    errors: bytes
    seconds: float

    @property
    def line(self) -> str:
        """The line on standard output, without its end."""
        return self.out.decode(errors="replace").rstrip("\n")

    @property
    def fault(self) -> str:
        """What standard error has beside lines of progress."""
        lines = self.errors.decode(errors="replace").rstrip("\n").split("\n")
        return "\n".join(line for line in lines if not PROGRESS.match(line))


class Run:
    """A run of the program by its words, the program's path first. It has a group of its own, so no signal of a
    terminal reaches it, and it ends with the thread that started it. Variables are added to those of this process, and
    files in memory stay open in it. Raises `Fault` where it can't be started. In a subinterpreter, which can't prepare
    a process, one outlives a Python that is killed."""

    def __init__(self, words: Sequence[str], variables: Optional[Mapping[str, str]] = None,
                 memory: Optional[Memory] = None) -> None:
        self.began = time.monotonic()
        env = None if variables is None else {**os.environ, **variables}
        try:
            self.process = self.started(words, env, memory, functools.partial(end_with_parent, os.getpid()))
        except RuntimeError:
            self.process = self.started(words, env, memory, None)
        except OSError as fault:
            raise Fault("%s: %s" % (words[0], fault.strerror or fault), None)

    @staticmethod
    def started(words: Sequence[str], env: Optional[Mapping[str, str]], memory: Optional[Memory],
                prepare: Optional[Callable[[], None]]) -> subprocess.Popen[bytes]:
        """A process, prepared by a call of its own."""
        return subprocess.Popen(
            words, stdin=subprocess.DEVNULL, stdout=subprocess.PIPE, stderr=subprocess.PIPE, start_new_session=True,
            env=env, pass_fds=memory.streams if memory else (), preexec_fn=prepare)

    def ended(self, is_over: Callable[[], bool] = lambda: False,
              tell: Optional[Callable[[Optional[Progress]], None]] = None) -> Ran:
        """Waits until it ends, or ends it once `is_over` answers true, which is asked ten times a second or more often.
        `tell` is called as often, with what a line of progress says, or None."""
        out, errors = self.process.stdout, self.process.stderr
        assert out is not None and errors is not None
        streams = [out.fileno(), errors.fileno()]
        held, told = dict.fromkeys(streams, b""), 0
        rest, status = list(streams), None
        with out, errors:
            try:
                while rest and not is_over():
                    for stream in select.select(rest, [], [], OFTEN)[0]:
                        came = os.read(stream, PORTION)
                        held[stream] += came
                        if not came:
                            rest.remove(stream)
                    if tell:
                        told = self.told(held[streams[1]], told, tell)
                while not rest and status is None and not is_over():
                    status = self.process.poll()
                    time.sleep(0 if status is not None else 0.002)
            finally:
                if status is None:
                    self.process.kill()
                    self.process.wait()
        return Ran(status, held[streams[0]], held[streams[1]], time.monotonic() - self.began)

    def told(self, errors: bytes, begin: int, tell: Callable[[Optional[Progress]], None]) -> int:
        """Tells the lines of progress behind a place, and answers the place behind the last line."""
        end = errors.rfind(b"\n") + 1
        for line in errors[begin:end].decode(errors="replace").split("\n"):
            found = PROGRESS.match(line)
            if found:
                tell(Progress(int(found[1]), in_tenths(found[2]), in_tenths(found[3]), time.monotonic() - self.began))
        tell(None)
        return max(begin, end)


def run_check(program: str, instance: bytes, certificate: bytes, plan: Optional[bytes] = None,
              states: Optional[int] = None) -> Ran:
    """A run of the check on texts; a plan may be left out."""
    with Memory() as memory:
        words = [program, "check", memory.put(instance), memory.put(certificate)]
        words += [] if plan is None else ["--solution", memory.put(plan)]
        words += [] if states is None else ["--states", str(states)]
        return Run(words, memory=memory).ended()

