"""The built program, run in a folder of its own."""
import fcntl
import os
import select
import signal
import time

from vrptw import Run

# How many seconds a run may take.
LONGEST = 600


class Disagreement(Exception):
    """The program and the reference don't agree."""


def demand(holds, told):
    if not holds:
        raise Disagreement(told)


def catcher(name):
    """A file in memory that is appended to: else two threads that write at once may write at the same place."""
    stream = os.memfd_create(name)
    fcntl.fcntl(stream, fcntl.F_SETFL, os.O_APPEND)
    return stream


def run(command, variables=None, streams=(), longest=LONGEST):
    """Standard output, standard error and the status, a signal's number below 0. The streams are further actions of
    the start, after standard input is empty and both outputs are caught."""
    caught = [catcher("out"), catcher("errors")]
    try:
        actions = [(os.POSIX_SPAWN_OPEN, 0, "/dev/null", os.O_RDONLY, 0), (os.POSIX_SPAWN_DUP2, caught[0], 1),
                   (os.POSIX_SPAWN_DUP2, caught[1], 2)] + list(streams)
        child = os.posix_spawn(command[0], command, {**os.environ, **(variables or {})}, file_actions=actions)
        status = ended(child, longest)
        return [os.pread(stream, os.fstat(stream).st_size, 0) for stream in caught] + [status]
    finally:
        for stream in caught:
            os.close(stream)


def ended(child, longest):
    """The status of a child that ends in time; another one is stopped."""
    handle = os.pidfd_open(child)
    try:
        poll = select.poll()
        poll.register(handle, select.POLLIN)
        if not poll.poll(1000 * longest):
            os.kill(child, signal.SIGKILL)
            os.waitpid(child, 0)
            raise Disagreement("the program didn't end in %d s" % longest)
        return os.waitstatus_to_exitcode(os.waitpid(child, 0)[1])
    finally:
        os.close(handle)


def put(path, text):
    with open(path, "wb") as file:
        file.write(text)


def got(path):
    """What a file holds, or None where it isn't there."""
    try:
        with open(path, "rb") as file:
            return file.read()
    except FileNotFoundError:
        return None


def shown(line):
    """A line as text, whatever its bytes are."""
    return line.decode(errors="backslashreplace")


def ran(command, variables=None):
    """The program's lines and its status, by the module for Python; variables are added to those of this process."""
    ends = time.monotonic() + LONGEST
    came = Run(command, variables).ended(lambda: time.monotonic() >= ends)
    demand(came.status is not None, "the program didn't end in %d s" % LONGEST)
    return shown(came.out), shown(came.errors), came.status


def solve(program, folder, text, options=(), variables=None):
    """The program's lines, its status and both texts, which stand in the folder."""
    paths = [os.path.join(folder, name) for name in ("instance", "solution", "certificate")]
    for path in paths[1:]:
        if os.path.exists(path):
            os.remove(path)
    put(paths[0], text)
    return (*ran([program, "solve"] + paths + list(options), variables), got(paths[1]), got(paths[2]))


def run_check(program, folder, text, certificate, solution, further=(), variables=None):
    """The program's lines and its status, with further options."""
    paths = [os.path.join(folder, name) for name in ("instance", "certificate", "solution")]
    for path, given in zip(paths, (text, certificate, solution)):
        if given is not None:
            put(path, given)
    command = [program, "check", paths[0], paths[1]] + ([] if solution is None else ["--solution", paths[2]])
    return ran(command + list(further), variables)
