"""The launcher `./vrptw` with paths that are one file by two names, or the file that a stream goes to, and with files
that are at fault: rows by hand."""
import os
import subprocess

from judges.kind import Kind
from judges.launching_copies import COPIES, judge_copy, judge_word
from judges.running import demand, got, put
from cases.tool_faults import FILES
from tools.places import TOP

FILE = "vrptw: file\n"
# The words, and what a terminal is told behind the program's line of a fault.
ROWS = [
    ("solve i.txt p.txt sub/../p.txt", "p.txt and sub/../p.txt are one file"),
    ("solve i.txt new.txt sub/../new.txt", "new.txt and sub/../new.txt are one file"),
    ("solve i.txt p.txt link.txt", "p.txt and link.txt are one file"),
    ("solve i.txt p.txt hard.txt", "p.txt and hard.txt are one file"),
    ("solve i.txt p.txt %s/p.txt", "p.txt and %s/p.txt are one file"),
    ("solve i.txt sub/../i.txt k.txt", "sub/../i.txt and i.txt are one file"),
    ("solve i.txt link.txt c.txt --start=p.txt --turns 1", "link.txt and p.txt are one file"),
    ("solve i.txt --start p.txt new.txt --turns 1 link.txt", "link.txt and p.txt are one file"),
    ("solve i.txt new.txt tree.txt --tree k.txt", "tree.txt and k.txt are one file"),
    ("solve i.txt tree.txt c.txt --tree=k.txt --start p.txt", "tree.txt and k.txt are one file"),
    ("solve --start p.txt i.txt c.txt --tree k.txt hard.txt", "hard.txt and p.txt are one file"),
    ("solve i.txt new.txt c.txt --plans sub/../p.txt --start p.txt", "sub/../p.txt and p.txt are one file"),
    ("solve i.txt new.txt c.txt --plans=sub/../i.txt", "sub/../i.txt and i.txt are one file"),
    ("solve --plans link.txt i.txt p.txt c.txt", "p.txt and link.txt are one file"),
    ("solve i.txt new.txt other.txt --plans no/m.txt", "the folder no of m.txt isn't there"),
    ("solve nowhere p.txt c.txt", "nowhere isn't there"),
    ("solve i.txt sub c.txt", "sub is a folder"),
    ("solve i.txt new.txt no/c.txt", "the folder no of c.txt isn't there"),
    ("solve i.txt p.txt c.txt --start nowhere", "nowhere isn't there"),
    ("check i.txt nowhere", "nowhere isn't there"),
    ("check i.txt k.txt --solution sub", "sub is a folder"),
]
# The same of an instance that is a table, behind the program's line of that.
TABLE = "vrptw: instance: BadWord line 2\n"
TABLES = [
    ("check t.csv k.txt", "t.csv is a table: convert it first (outside/convert t.csv instance.txt), or use "
     "outside/plan"),
]
# Words of which the launcher says nothing, with the status and the line.
RIGHT = [
    ("solve i.txt new.txt c.txt --turns 1", 0, "BEST 20.0\n"),
    ("solve i.txt new.txt c.txt --start p.txt --turns 1", 0, "BEST 20.0\n"),
    ("solve i.txt new.txt c.txt --start p.txt --tree k.txt --part 1/2 --turns 1", 0, "BEST 20.0\n"),
    ("solve i.txt new.txt c.txt --plans m.txt --turns 1", 0, "BEST 20.0\n"),
    ("solve i.txt p.txt link.txt --turns 0", 2, ""),
    ("solve i.txt p.txt", 2, ""),
    ("check i.txt k.txt --solution p.txt", 1, "GAP 20.0 0.0\n"),
    ("check i.txt k.txt --solution link.txt", 1, "GAP 20.0 0.0\n"),
]
# Words with a stream that goes to a file, which is written, too, and what a terminal is told as above.
STREAMS = [
    ("solve i.txt /dev/stdout c.txt >o.txt", "/dev/stdout and standard output are one file"),
    ("solve i.txt c.txt /dev/stdout >o.txt", "/dev/stdout and standard output are one file"),
    ("solve i.txt /dev/fd/1 c.txt >>o.txt", "/dev/fd/1 and standard output are one file"),
    ("solve i.txt /proc/self/fd/1 c.txt >o.txt", "/proc/self/fd/1 and standard output are one file"),
    ("solve i.txt /dev/fd/3 c.txt >o.txt 3>&1", "/dev/fd/3 and standard output are one file"),
    ("solve i.txt --turns 1 sub/../o.txt c.txt >o.txt", "sub/../o.txt and standard output are one file"),
    ("solve --turns 1 i.txt c.txt -- link.txt >>p.txt", "link.txt and standard output are one file"),
    ("solve i.txt hard.txt c.txt >>p.txt", "hard.txt and standard output are one file"),
    ("solve i.txt p.txt c.txt --plans=/dev/stdout --turns 1 >o.txt", "/dev/stdout and standard output are one file"),
    ("solve i.txt /dev/stderr c.txt 2>o.txt", None),
    ("solve i.txt c.txt o.txt 2>o.txt", None),
]
# Words with streams by which nothing is lost, with the status, and what standard output or the file o.txt has then.
KEPT = [
    ("solve i.txt /dev/stdout c.txt --turns 1 | cat", 0, "Route #1: 1 2\nCost 20.0\nBEST 20.0\n"),
    ("solve i.txt c.txt p.txt --plans /dev/stdout --turns 1 | cat", 0, "Route #1: 1 2\nCost 20.0\nBEST 20.0\n"),
    ("solve i.txt /dev/fd/1 c.txt --turns 1 | cat >o.txt", 0, "Route #1: 1 2\nCost 20.0\nBEST 20.0\n"),
    ("solve i.txt /dev/stderr c.txt --turns 1", 0, "BEST 20.0\n"),
    ("solve i.txt /dev/null c.txt --turns 1 >o.txt", 0, "BEST 20.0\n"),
    ("solve i.txt c.txt /dev/stdout --turns 1 >/dev/null", 0, ""),
    ("solve i.txt p.txt c.txt --turns 1 >o.txt", 0, "BEST 20.0\n"),
    ("solve i.txt /dev/stdout >o.txt", 2, ""),
    ("solve i.txt c.txt --start p.txt >>p.txt", 2, ""),
    ("check i.txt k.txt --solution p.txt >o.txt", 1, "GAP 20.0 0.0\n"),
]
LAUNCHES = ([("wrong", *row) for row in ROWS] + [("table", *row) for row in TABLES] + [("right", *row) for row in RIGHT + KEPT]
            + [("stream", *row) for row in STREAMS] + COPIES)


def fitted_out(folder):
    for name in ("i.txt", "p.txt", "k.txt", "t.csv"):
        put(os.path.join(folder, name), FILES[name].encode())
    os.mkdir(os.path.join(folder, "sub"))
    os.symlink("p.txt", os.path.join(folder, "link.txt"))
    os.symlink("k.txt", os.path.join(folder, "tree.txt"))
    os.link(os.path.join(folder, "p.txt"), os.path.join(folder, "hard.txt"))


def launched(folder, words, has_terminal):
    """What the launcher says, with standard error a terminal or none, and its status."""
    ours, theirs = os.openpty() if has_terminal else os.pipe()
    try:
        came = subprocess.run(["/bin/bash", "-o", "pipefail", "-c", "'%s'/vrptw %s" % (TOP, words)], cwd=folder,
                              stdin=subprocess.DEVNULL, stdout=subprocess.PIPE, stderr=theirs)
        # What stands there is little, and is held by the terminal or the pipe.
        os.write(theirs, b"\0")
        errors = b""
        while not errors.endswith(b"\0"):
            errors += os.read(ours, 4096)
    finally:
        os.close(theirs)
        os.close(ours)
    return came.stdout.decode(), errors[:-1].decode().replace("\r\n", "\n"), came.returncode


def judge_refused(folder, words, told, has_terminal, line=FILE, ends=6):
    """The program's line, and on a terminal the launcher's; nothing is emptied or written."""
    out, errors, status = launched(folder, words, has_terminal)
    # Where standard error goes to a file, the line stands there alone.
    said = (got(os.path.join(folder, "o.txt")) or b"").decode()
    right = line + ("vrptw: %s\n" % told if told and has_terminal else "")
    demand((out, errors + said, status) == ("", right, ends), "%s: %r, and %r is right" % (words, errors + said, right))
    for name, text in [*((name, FILES[name].encode()) for name in ("i.txt", "p.txt", "k.txt")), ("c.txt", None)]:
        demand(got(os.path.join(folder, name)) == text, "%s changed %s" % (words, name))


def judge_kept(folder, words, status, right, has_terminal):
    """The program's answer, on standard output or in a file that takes it; of the launcher no word."""
    out, errors, came = launched(folder, words, has_terminal)
    out += (got(os.path.join(folder, "o.txt")) or b"").decode()
    demand((out, came) == (right, status) and "vrptw: " not in errors, "%s: %r" % (words, (out, errors, came)))


def judge_launch(folder, seed):
    """One row, with a terminal and without, or one copy of the tree."""
    kind, words, *told = LAUNCHES[seed]
    if kind in ("copy", "word"):
        return (judge_copy if kind == "copy" else judge_word)(folder, words, *told)
    for has_terminal in (False, True):
        fitted_out(folder)
        here = [part.replace("%s", folder) if isinstance(part, str) else part for part in (words, *told)]
        more = [TABLE, 3] if kind == "table" else []
        (judge_kept if kind == "right" else judge_refused)(folder, *here, has_terminal, *more)
        for name in os.listdir(folder):
            path = os.path.join(folder, name)
            (os.rmdir if os.path.isdir(path) else os.remove)(path)
    return kind


KINDS = {
    "launches": Kind("the launcher with one file by two names, and files at fault, on a terminal and without",
                     len(LAUNCHES),
                     lambda programs, folder, random, seed: judge_launch(folder, seed), is_fixed=True),
}
