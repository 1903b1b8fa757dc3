"""Truncated texts and failing devices: each proper front of the three texts of one customer, and files and streams that
can't be opened, read or written.

A case is a name and a function of the program and a folder, which holds the three texts when it is called.
"""
import functools
import os
import shutil
import threading

from cases.rows import INSTANCES, certificate_text
from judges.kind import Kind, number_by
from judges.running import Disagreement, demand, got, put, run
from reference import bounding, checking
from reference.instances import Fault, read
from tools.places import TOP

INSTANCE = INSTANCES["one"].encode()
CERTIFICATE = certificate_text("2", "1", "8", "10.0", "P 0\n").encode()
SOLUTION = b"Route #1: 1\nCost 10.0\n"
TEXTS = {"instance": INSTANCE, "certificate": CERTIFICATE, "solution": SOLUTION}
OLD = b"as it was before\n"
BEST = (b"BEST 10.0\n", b"", 0)
FAILED = (b"", b"vrptw: file\n", 6)
MEMORY = (b"", b"vrptw: memory\n", 4)
BLANKS = 200_000_000
# Few turns don't close it.
OPEN = os.path.join(TOP, "examples", "rc1_100.txt")
# Seconds that a case may take.
LONGEST = 60
# What isn't stated here is caught, or empty.
CLOSED_IN, CLOSED_OUT, CLOSED_ERRORS = [(os.POSIX_SPAWN_CLOSE, stream) for stream in range(3)]
FULL_OUT, FULL_ERRORS = [(os.POSIX_SPAWN_OPEN, stream, "/dev/full", os.O_WRONLY, 0) for stream in (1, 2)]


def path_in(folder, name):
    return name if name.startswith("/") or not name else os.path.join(folder, name)


def solve_call(program, folder, instance="instance", solution="plan", certificate="bound"):
    return [program, "solve"] + [path_in(folder, name) for name in (instance, solution, certificate)]


def close_call(program, folder, **names):
    return solve_call(program, folder, **names) + ["--close"]


def check_call(program, folder, instance="instance", certificate="certificate", solution="solution"):
    return [program, "check"] + [path_in(folder, instance), path_in(folder, certificate), "--solution",
                                 path_in(folder, solution)]


def limited(call, kilobytes):
    """The call with so much memory."""
    return ["/bin/sh", "-c", 'ulimit -v %d; exec "$@"' % kilobytes, "sh"] + call


def expect(program, folder, call, wanted, plan=None, bound=None, streams=()):
    """The lines and the status of the call, and then what both outputs of `solve` hold; None where there is none."""
    came = tuple(run(call, None, streams, LONGEST))
    demand(came == wanted, "%r, and %r is right" % (came, wanted))
    left = (got(path_in(folder, "plan")), got(path_in(folder, "bound")))
    demand(left == (plan, bound), "files %r, and %r is right" % (left, (plan, bound)))


def front(name, size, program, folder):
    """The first bytes of one of the three texts, through the check, and an instance through `solve` too."""
    put(path_in(folder, name), TEXTS[name][:size])
    texts = [got(path_in(folder, each)) for each in ("instance", "certificate", "solution")]
    out, errors, status = checking.check(*texts, bounding.least_by_routes)
    demand(name == "instance" or errors == "vrptw: %s: Truncated\n" % name, "%d bytes: %s" % (size, errors))
    expect(program, folder, check_call(program, folder), (out.encode(), errors.encode(), status))
    if name == "instance":
        is_whole = status == 0
        wanted = BEST if is_whole else (out.encode(), errors.encode(), status)
        expect(program, folder, solve_call(program, folder), wanted, SOLUTION if is_whole else b"",
               CERTIFICATE if is_whole else b"")


def front_rule(size, program, folder):
    """What the reference's reader says of a front of the instance, against the places of its words alone."""
    text = INSTANCE[:size]
    depot = INSTANCE.index(b"1000 0\n") + len("1000 0")
    last = text.split()[-1] if text[-1:].strip() else b""
    is_part = bool(last) and not last.isdigit() and INSTANCE[size:size + 1].strip() != b""
    right = ("whole" if size == len(INSTANCE) - 1 else "NoCustomers" if size in (depot, depot + 1)
             else "BadWord line %d" % (text.count(b"\n") + 1) if is_part else "Truncated")
    try:
        read(text)
        said = "whole"
    except Fault as fault:
        said = str(fault)
    demand(said == right, "a front of %d bytes: %s, and %s is right" % (size, said, right))


def made(folder, name):
    os.mkdir(path_in(folder, name))


def plain(call_of, wanted, plan=None, bound=None, streams=(), folder_named=None, **names):
    """A case of `solve_call` or `check_call` with these names in place of the usual ones."""
    def case(program, folder):
        if folder_named:
            made(folder, folder_named)
        expect(program, folder, call_of(program, folder, **names), wanted, plan, bound, streams)
    return case


def refused_instance(streams, wanted):
    """A line on standard error that can't be written: the status stays, and no file gets the line."""
    def case(program, folder):
        put(path_in(folder, "instance"), INSTANCE[:-4])
        expect(program, folder, solve_call(program, folder), wanted, b"", b"", streams)
    return case


def untold(stream):
    """Lines of `--progress` that can't be written: the answer stands."""
    def case(program, folder):
        shutil.copy(OPEN, path_in(folder, "instance"))
        call = solve_call(program, folder) + ["--progress", "--turns", "3"]
        out, errors, status = run(call, None, [stream], LONGEST)
        told = tuple(run(check_call(program, folder, certificate="bound", solution="plan"), None, (), LONGEST))
        demand((out, errors, status) == told and status in (0, 1), "%r, and the check: %r" % (out, told))
    return case


def spoilt_first(call_of, plan, bound):
    """The instance begins with a byte that isn't ASCII."""
    def case(program, folder):
        put(path_in(folder, "instance"), b"\x80" + INSTANCE[1:])
        refused = (b"", b"vrptw: instance: NotAscii offset 0\n", 3)
        expect(program, folder, call_of(program, folder), refused, plan, bound)
    return case


def same_paths(first, second, third):
    """Paths that are the same but for `.` and empty parts: nothing is read, made or emptied."""
    def case(program, folder):
        names = {os.path.normpath(name) for name in (first, second, third)}
        for name in names - {"instance"}:
            put(path_in(folder, name), OLD)
        came = tuple(run(solve_call(program, folder, first, second, third), None, (), LONGEST))
        demand(came == FAILED, "%r" % (came,))
        for name in names:
            demand(got(path_in(folder, name)) == TEXTS.get(name, OLD), "the file %s was changed" % name)
    return case


def pipe_closed_early(program, folder, call_of, wanted):
    """Standard output is a pipe that nobody reads."""
    reading, writing = os.pipe()
    os.close(reading)
    try:
        expect(program, folder, call_of(program, folder), FAILED, *wanted,
               streams=[(os.POSIX_SPAWN_DUP2, writing, 1)])
    finally:
        os.close(writing)


def reader_that_leaves(name, plan, bound):
    """An output is a pipe whose reader leaves before anything is written."""
    def case(program, folder):
        path = path_in(folder, name)
        os.mkfifo(path)
        reader = threading.Thread(target=lambda: os.close(os.open(path, os.O_RDONLY)), daemon=True)
        reader.start()
        came = tuple(run(solve_call(program, folder), None, (), LONGEST))
        reader.join(LONGEST)
        os.remove(path)
        demand(came == FAILED, "%r" % (came,))
        left = (got(path_in(folder, "plan")), got(path_in(folder, "bound")))
        demand(left == (plan, bound), "files %r" % (left,))
    return case


def from_a_pipe(name):
    """A text that comes through a pipe, in pieces."""
    def case(program, folder):
        path, text = path_in(folder, name), TEXTS[name]
        os.remove(path)
        os.mkfifo(path)

        def write():
            with open(path, "wb", buffering=0) as pipe:
                for at in range(0, len(text), 7):
                    pipe.write(text[at:at + 7])

        writer = threading.Thread(target=write, daemon=True)
        writer.start()
        expect(program, folder, check_call(program, folder), BEST)
        writer.join(LONGEST)
    return case


def into_a_pipe(name, text):
    """An output is a pipe that is read in pieces."""
    def case(program, folder):
        path, pieces = path_in(folder, name), []
        os.mkfifo(path)

        def read_all():
            with open(path, "rb", buffering=0) as pipe:
                while piece := pipe.read(7):
                    pieces.append(piece)

        reader = threading.Thread(target=read_all, daemon=True)
        reader.start()
        came = tuple(run(solve_call(program, folder), None, (), LONGEST))
        reader.join(LONGEST)
        demand((came, b"".join(pieces)) == (BEST, text), "%r, %r" % (came, pieces))
    return case


def bound_by_permissions(call):
    """The call as one that files' permissions bind, the superuser's too, or None where that can't be had."""
    if os.geteuid() != 0:
        return call
    dropper = shutil.which("setpriv")
    return dropper and [dropper, "--bounding-set=-dac_override,-dac_read_search"] + call


def without_permission(call_of, name, mode, plan=None, bound=None):
    """A file that may not be read, or an output that may not be written and stays as it was."""
    def case(program, folder):
        call = bound_by_permissions(call_of(program, folder))
        if call is None:
            return "left out, the superuser may do all"
        if name not in TEXTS:
            put(path_in(folder, name), OLD)
        os.chmod(path_in(folder, name), mode)
        expect(program, folder, call, FAILED, plan, bound)
        return None
    return case


def blanks(kilobytes, wanted):
    """Many blanks before the last row, with so much memory, 0 for all that there is."""
    def case(program, folder):
        at = INSTANCE.rindex(b"1 3 4")
        put(path_in(folder, "instance"), INSTANCE[:at] + b" " * BLANKS + INSTANCE[at:])
        call = check_call(program, folder)
        expect(program, folder, limited(call, kilobytes) if kilobytes else call, wanted)
    return case


def endless(program, folder):
    """A device without an end is read until memory is refused, and no output is made."""
    call = solve_call(program, folder, instance="/dev/zero")
    expect(program, folder, limited(call, 100_000), MEMORY)


def wrong_word(word):
    """Words that are no job, or that aren't UTF-8."""
    def case(program, folder):
        out, errors, status = run([program] + word, None, (), LONGEST)
        demand((out, status) == (b"", 2) and errors, "%r: %r" % (word, (out, errors, status)))
    return case


def help_failed(stream):
    """Help goes to standard output, which can't be written."""
    def case(program, folder):
        came = tuple(run([program, "solve", "--help"], None, [stream], LONGEST))
        demand(came == FAILED, "%r" % (came,))
    return case


def fronts():
    found = []
    for name, text in TEXTS.items():
        for size in range(len(text)):
            found.append(("a front of the %s" % name, functools.partial(front, name, size)))
    return found + [("a front's fault", functools.partial(front_rule, size)) for size in range(len(INSTANCE))]


DEEP = "nowhere/file"
LONG = "x" * 300
STREAMS = [
    ("nothing fails", plain(solve_call, BEST, SOLUTION, CERTIFICATE)),
    ("nothing fails, close", plain(close_call, BEST, SOLUTION, CERTIFICATE)),
    ("standard input closed", plain(solve_call, BEST, SOLUTION, CERTIFICATE, [CLOSED_IN])),
    ("standard output closed, solve", plain(solve_call, FAILED, SOLUTION, CERTIFICATE, [CLOSED_OUT])),
    ("standard output closed, check", plain(check_call, FAILED, streams=[CLOSED_OUT])),
    ("standard input and output closed, solve",
     plain(solve_call, FAILED, SOLUTION, CERTIFICATE, [CLOSED_IN, CLOSED_OUT])),
    ("standard output full, solve", plain(solve_call, FAILED, SOLUTION, CERTIFICATE, [FULL_OUT])),
    ("standard output full, close", plain(close_call, FAILED, SOLUTION, CERTIFICATE, [FULL_OUT])),
    ("standard output full, check", plain(check_call, FAILED, streams=[FULL_OUT])),
    ("standard output full, help", help_failed(FULL_OUT)),
    ("standard output closed, help", help_failed(CLOSED_OUT)),
    ("standard error closed", plain(solve_call, BEST, SOLUTION, CERTIFICATE, [CLOSED_ERRORS])),
    ("standard error closed, a refusal", refused_instance([CLOSED_ERRORS], (b"", b"", 3))),
    ("standard error full, a refusal", refused_instance([FULL_ERRORS], (b"", b"", 3))),
    ("standard error closed, progress", untold(CLOSED_ERRORS)),
    ("standard error full, progress", untold(FULL_ERRORS)),
    ("both full", plain(solve_call, (b"", b"", 6), SOLUTION, CERTIFICATE, [FULL_OUT, FULL_ERRORS])),
    ("standard output a pipe that nobody reads, solve",
     lambda program, folder: pipe_closed_early(program, folder, solve_call, (SOLUTION, CERTIFICATE))),
    ("standard output a pipe that nobody reads, check",
     lambda program, folder: pipe_closed_early(program, folder, check_call, (None, None))),
]
OUTPUTS = [
    ("the solution on a full device", plain(solve_call, FAILED, None, b"", solution="/dev/full")),
    ("the certificate on a full device", plain(solve_call, FAILED, SOLUTION, certificate="/dev/full")),
    ("the solution on a full device, close", plain(close_call, FAILED, None, b"", solution="/dev/full")),
    ("the certificate on a full device, close", plain(close_call, FAILED, SOLUTION, certificate="/dev/full")),
    ("the solution on a device that takes all", plain(solve_call, BEST, None, CERTIFICATE, solution="/dev/null")),
    ("a folder in place of the solution", plain(solve_call, FAILED, folder_named="d", solution="d")),
    ("a folder in place of the certificate", plain(solve_call, FAILED, b"", folder_named="d", certificate="d")),
    ("the solution in no folder", plain(solve_call, FAILED, solution=DEEP)),
    ("the certificate in no folder", plain(solve_call, FAILED, b"", certificate=DEEP)),
    ("the solution without permission", without_permission(solve_call, "plan", 0o400, OLD)),
    ("the certificate without permission", without_permission(solve_call, "bound", 0o400, b"", OLD)),
    ("the solution with a long name", plain(solve_call, FAILED, solution=LONG)),
    ("the solution without a name", plain(solve_call, FAILED, solution="")),
    ("the solution's reader leaves", reader_that_leaves("plan", None, b"")),
    ("the certificate's reader leaves", reader_that_leaves("bound", SOLUTION, None)),
    ("the solution into a pipe", into_a_pipe("plan", SOLUTION)),
    ("the certificate into a pipe", into_a_pipe("bound", CERTIFICATE)),
    ("same paths, instance and solution", same_paths("instance", "instance", "bound")),
    ("same paths, instance and certificate", same_paths("instance", "plan", "instance")),
    ("same paths, solution and certificate", same_paths("instance", "plan", "plan")),
    ("same paths, a dot before the solution", same_paths("instance", "./instance", "bound")),
    ("same paths, dots and empty parts", same_paths("././/instance", "plan", ".//./instance")),
    ("same paths, an empty part", same_paths("instance", "./plan", ".//plan")),
    ("same paths, solution and certificate that aren't there, no instance", plain(
        solve_call, FAILED, instance="none", solution="plan", certificate="plan")),
]
INPUTS = [
    ("no instance, solve", plain(solve_call, FAILED, instance="none")),
    ("no instance, close", plain(close_call, FAILED, instance="none")),
    ("a folder in place of the instance, solve", plain(solve_call, FAILED, folder_named="d", instance="d")),
    ("a byte that isn't ASCII in front, solve", spoilt_first(solve_call, b"", b"")),
    ("a byte that isn't ASCII in front, check", spoilt_first(check_call, None, None)),
    ("an empty instance", plain(solve_call, (b"", b"vrptw: instance: Truncated\n", 3), b"", b"",
                                instance="/dev/null")),
    ("an instance without an end", endless),
    ("200 MB of blanks", blanks(0, BEST)),
    ("200 MB of blanks, 100 MB of memory", blanks(100_000, MEMORY)),
] + [("no %s, check" % name, plain(check_call, FAILED, **{name: "none"})) for name in TEXTS
     ] + [("a folder in place of the %s, check" % name, plain(check_call, FAILED, folder_named="d", **{name: "d"}))
          for name in TEXTS
          ] + [("the %s from a pipe" % name, from_a_pipe(name)) for name in TEXTS
               ] + [("the %s without permission, check" % name, without_permission(check_call, name, 0))
                    for name in TEXTS]
WORDS = [("wrong words", wrong_word(word)) for word in (
    [], [""], ["solve"], ["check", "a"], ["solve", "a", "b"], ["solve", "a", "b", "c", "d"], ["solve", "--turns"],
    ["check", "a", "b", "--solution"], ["close"], [b"solve", b"\xff", b"b", b"c"], [b"check", b"a", b"\xc3"],
    ["solve", "a", "b", "c", "--turns", "1", "--turns", "2"], ["solve", "a", "b", "c", "--labels", "1e3"])]
DEVICES = fronts() + STREAMS + OUTPUTS + INPUTS + WORDS


def judge_device(program, folder, number):
    """The case of this number. Answers its name."""
    name, case = DEVICES[number]
    for each, text in TEXTS.items():
        put(path_in(folder, each), text)
    try:
        found = case(program, folder)
    except Disagreement as fault:
        raise Disagreement("%s: %s" % (name, fault))
    return "%s, %s" % (name, found) if found else name


KINDS = {
    "devices": Kind("each front of the three texts of one customer; files and streams that fail", len(DEVICES),
                    number_by(judge_device), is_fixed=True),
}
