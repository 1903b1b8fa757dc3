"""Copies of the tree in which another program was built: which one the launcher and the module for Python run, and what
is said before something is built."""
import os
import shutil
import subprocess
import sys

from judges.running import demand, got, put
from tools.places import TOP

# The files of a copy; a folder of the program's crate in which sums are taken is copied, too, all others are linked.
COPIED = ("vrptw", "crates.txt", "HANDLES", "release", "outside/vrptw", "bench/run", "crates/program/src")
BUILT, STAMP, SOURCE = "crates/program/out/program", "out/built", "crates/program/src/main.rt"
ASK = "import vrptw; print(vrptw.Run([vrptw.program_here(), '--version']).ended().out.decode(), end='')"
# Cases: what became of the sources, whether the built program is of these sources, the variable that asks for the
# built one, and which program runs.
CASES = [("kept", False, "", "released"), ("kept", True, "", "released"), ("kept", True, "1", "built"),
         ("kept", False, "1", None), ("changed", False, "", None), ("changed", True, "", "built"),
         ("gone", False, "", "released")]
# Stands for rt: it keeps what was said until then.
RT = '#!/bin/sh\ncp errors.txt "$(dirname "$0")/../seen.txt"\necho no proof\nexit 1\n'
COPIES = [("copy", *case) for case in CASES] + [("word", "closing"), ("word", "descents")]


def copied(folder):
    """Makes a copy of what a launcher needs, whose release is of its sources."""
    for name in COPIED:
        os.makedirs(os.path.join(folder, os.path.dirname(name)), exist_ok=True)
        (shutil.copytree if os.path.isdir(os.path.join(TOP, name)) else shutil.copy)(
            os.path.join(TOP, name), os.path.join(folder, name))
    for name in os.listdir(os.path.join(TOP, "crates")):
        if name != "program":
            os.symlink(os.path.join(TOP, "crates", name), os.path.join(folder, "crates", name))
    for name in ("specs", "proofs"):
        if os.path.isdir(os.path.join(TOP, "crates", "program", name)):
            shutil.copytree(os.path.join(TOP, "crates", "program", name), os.path.join(folder, "crates/program", name))
    os.symlink(os.path.join(TOP, "examples"), os.path.join(folder, "examples"))
    put(os.path.join(folder, "release/made-from"), ("sources %s\n" % sum_of(folder)).encode())


def sum_of(folder):
    """The sum of the sources of a copy."""
    return subprocess.run(["/bin/bash", "-c", 'top=$1; . "$1/release/sources.sh"; sources_sum', "sum", folder],
                          capture_output=True, check=True).stdout.decode().strip()


def executable(path, text):
    os.makedirs(os.path.dirname(path), exist_ok=True)
    put(path, text.encode())
    os.chmod(path, 0o755)


def said(folder, words, more, first=None):
    """Standard output, standard error and the status, without rt on the path, or with a folder before it."""
    paths = [path for path in os.environ["PATH"].split(":") if not os.path.exists(os.path.join(path, "rt"))]
    path = ":".join(([first] if first else []) + paths + ["/usr/bin", "/bin"])
    with open(os.path.join(folder, "errors.txt"), "wb") as errors:
        came = subprocess.run(words, cwd=folder, stdin=subprocess.DEVNULL, stdout=subprocess.PIPE, stderr=errors,
                              env={**os.environ, "PATH": path, **more})
    return came.stdout.decode(), got(os.path.join(folder, "errors.txt")).decode(), came.returncode


def judge_copy(folder, sources, is_of_these, asks, right):
    """Launcher and module run the same program, or both say that none is built of these sources."""
    copied(folder)
    if sources == "changed":
        put(os.path.join(folder, SOURCE), got(os.path.join(folder, SOURCE)) + b"// changed\n")
    elif sources == "gone":
        shutil.rmtree(os.path.join(folder, "crates"))
        os.remove(os.path.join(folder, "crates.txt"))
    executable(os.path.join(folder, BUILT), "#!/bin/sh\necho built\n")
    os.makedirs(os.path.join(folder, "out"))
    put(os.path.join(folder, STAMP), ("%s\nof old\n" % (sum_of(folder) if is_of_these else "0")).encode())
    more = {"VRPTW_BUILD": asks, "PYTHONPATH": os.path.join(folder, "outside")}
    version = subprocess.run([os.path.join(TOP, "release/vrptw-x86_64-linux"), "--version"], capture_output=True).stdout
    wanted = {"released": version.decode(), "built": "built\n", None: ""}[right]
    for words in ([os.path.join(folder, "vrptw"), "--version"], [sys.executable, "-B", "-c", ASK]):
        out, errors, status = said(folder, words, more)
        demand(out == wanted and (status == 0) == (right is not None), "%s, sources %s, of these %s, %r: %r, %r" % (
            words[-2:], sources, is_of_these, asks, out, errors))
        is_told = "to be built" in errors or "is built of these" in errors or "isn't on the path" in errors
        demand(is_told == (right is None), "%r: %r" % (words, errors))
    return "the %s program" % right if right else "no program of these sources"


def judge_word(folder, word):
    """What bench/run is about to have built it says before; rt only notes what was said."""
    copied(folder)
    executable(os.path.join(folder, "few", "rt"), RT.replace("errors.txt", os.path.join(folder, "errors.txt")))
    os.makedirs(os.path.join(folder, "out"))
    words = [os.path.join(folder, "bench/run"), word, os.path.join(folder, "examples/c1_25.txt")]
    out, errors, status = said(folder, words, {}, os.path.join(folder, "few"))
    seen = (got(os.path.join(folder, "seen.txt")) or b"").decode()
    demand(seen.count("\n") == 1 and "crates/instruments" in seen and "a quarter of an hour to an hour" in seen,
           "bench/run %s builds after %r" % (word, seen))
    demand((out, status) == ("", 1) and errors.startswith(seen) and errors.endswith("wasn't built: no proof\n"),
           "bench/run %s: status %d, %r" % (word, status, errors))
    return "said before"
