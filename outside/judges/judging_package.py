"""The package: a wheel that is built and installed apart from the repository, what `make install` puts below a prefix,
copies of the module, and the completions. What runs there on a drawn instance says what the repository's own says."""
import json
import os
import shutil
import subprocess
import sys

from cases.random_texts import instance_words, laid_out
from judges.kind import Kind
from judges.running import demand, got, put
from tools.manual import SUBCOMMANDS, Help
from tools.places import OUTSIDE, RELEASED, TOP
import vrptw

# What a source distribution has of the repository.
SOURCES = ("vrptw", "Makefile", "LICENSE", "README.md", "MANIFEST.in", "pyproject.toml", "setup.py", "release", "docs",
           "outside")
LEFT_OUT = shutil.ignore_patterns("__pycache__", "cases", "judges", "workshop", "lab", "methods")
TAG = "py3-none-manylinux_2_34_x86_64.whl"
# Pythons that may have what makes a wheel, and whether one has it.
PYTHONS = (sys.executable, "/usr/bin/python3")
MAKES = """import setuptools, pip
try:
    import setuptools.command.bdist_wheel
except ImportError:
    import wheel.bdist_wheel
"""
# By the module: the version, and the answer of a close as an object of JSON.
ASK = """import json, sys, vrptw
answer = vrptw.solve(sys.argv[1], close=True)
print(json.dumps([vrptw.__version__, answer.to_dict(), vrptw.schedule(sys.argv[1], answer).to_dict()
                  if answer.has_plan else None]))
"""
TYPED = """import vrptw

answer: vrptw.Answer = vrptw.solve("i.txt", seconds=1)
routes: list[list[int]] | None = answer.routes
version: str = vrptw.__version__
"""
# Words of the tools with a plan, and without one.
PLANNED = ("timetable i.txt p.txt --json", "draw i.txt p.txt", "recheck i.txt k.txt p.txt", "convert i.txt -  --to csv",
           "judge i.txt p.txt", "respell i.txt p.txt", "report i.txt p.txt k.txt")
BARE = ("convert i.txt - --to vrplib", "why i.txt k.txt")
MOST_CUSTOMERS = 6


def said(folder, words, path=(), more=None, longest=300):
    """What a command says in a folder, by an environment that has little more than the path: both outputs as text, and
    the status."""
    env = {"PATH": ":".join([*path, "/usr/bin", "/bin"]), "HOME": folder, "LC_ALL": "C.UTF-8", **(more or {})}
    came = subprocess.run(words, cwd=folder, env=env, stdin=subprocess.DEVNULL, capture_output=True, timeout=longest)
    return came.stdout.decode(errors="backslashreplace"), came.stderr.decode(errors="backslashreplace"), came.returncode


def demanded(folder, words, path=(), more=None):
    """What a command says on standard output; its status has to be 0."""
    out, errors, status = said(folder, words, path, more)
    demand(status == 0, "%s: status %d, %s" % (words, status, (out + errors)[-600:]))
    return out


def drawn(folder, random):
    """A folder with a drawn instance."""
    put(os.path.join(folder, "i.txt"), laid_out(random, instance_words(random, random.randint(1, MOST_CUSTOMERS))))
    return folder


def of_maker():
    """A Python that makes wheels, or None."""
    return next((python for python in PYTHONS if os.access(python, os.X_OK) and subprocess.run(
        [python, "-c", MAKES], capture_output=True).returncode == 0), None)


def compared(folder, commands):
    """The program, the tools and the module as commands of a folder, with what the repository's own say."""
    program, words = os.path.join(commands, "vrptw"), ["i.txt", "p.txt", "k.txt"]
    theirs = said(folder, [RELEASED, "solve", "i.txt", "p2.txt", "k2.txt", "--close"])
    ours = said(folder, [program, "solve", *words, "--close"])
    demand(ours == theirs, "%s says %r, and %r is right" % (program, ours, theirs))
    for one, other in (("p.txt", "p2.txt"), ("k.txt", "k2.txt")):
        demand(got(os.path.join(folder, one)) == got(os.path.join(folder, other)), "%s is another text" % one)
    has_plan = bool(got(os.path.join(folder, "p.txt")))
    for words in (PLANNED if has_plan else BARE):
        name, *rest = words.split()
        ours = said(folder, [os.path.join(commands, "vrptw-" + name), *rest])
        theirs = said(folder, [sys.executable, "-B", os.path.join(OUTSIDE, name), *rest,
                               *(["--program", RELEASED] if name == "report" else [])])
        theirs = tuple(as_installed(told) for told in theirs)
        demand(ours == theirs, "vrptw-%s says %r, and %r is right" % (words, ours, theirs))
    version = demanded(folder, [program, "--version"]).split()[1]
    demand(version == vrptw.__version__, "%s is of version %s" % (program, version))
    return version


def as_installed(told):
    """What a tool says, as one of the package says it."""
    if not isinstance(told, str):
        return told
    for name in (*(words.split()[0] for words in (*PLANNED, *BARE)), "plan"):
        told = told.replace("outside/%s" % name, "vrptw-" + name)
    return told.replace("./vrptw ", "vrptw ").replace("./vrptw<", "vrptw<")


def judge_asked(folder, python, version, more=None):
    """The module of a Python has the version, and says of the instance what that of here says."""
    out = demanded(folder, [python, "-B", "-c", ASK, "i.txt"], more=more)
    answer = vrptw.solve(os.path.join(folder, "i.txt"), close=True, program=RELEASED)
    right = [version, answer.to_dict(), vrptw.schedule(os.path.join(folder, "i.txt"), answer).to_dict()
             if answer.has_plan else None]
    demand(json.loads(out) == json.loads(json.dumps(right)), "the module says %s, and %r is right" % (out, right))


def sources(folder):
    """A copy of what a source distribution has."""
    top = os.path.join(folder, "sources")
    for name in SOURCES:
        source = os.path.join(TOP, name)
        if os.path.isdir(source):
            shutil.copytree(source, os.path.join(top, name), ignore=LEFT_OUT)
        else:
            os.makedirs(top, exist_ok=True)
            shutil.copy(source, top)
    return top


def judge_wheel(folder, random):
    """A wheel, installed in a clean environment, whose commands run in another folder."""
    python = of_maker()
    if python is None:
        return "left out, no Python here makes wheels"
    made, clean, place = (os.path.join(folder, name) for name in ("made", "clean", "place"))
    demanded(folder, [python, "-m", "pip", "wheel", sources(folder), "--no-build-isolation", "--no-deps", "--no-index",
                      "--quiet", "--wheel-dir", made])
    names = os.listdir(made)
    demand(names == ["vrptw-%s-%s" % (vrptw.__version__, TAG)], "pip made %s" % names)
    demanded(folder, [python, "-m", "venv", "--without-pip", clean])
    demanded(folder, [python, "-m", "pip", "--python", os.path.join(clean, "bin", "python"), "install", "--no-index",
                      "--no-deps", "--quiet", os.path.join(made, names[0])])
    shutil.rmtree(os.path.join(folder, "sources"))
    os.mkdir(place)
    version = compared(drawn(place, random), os.path.join(clean, "bin"))
    judge_asked(place, os.path.join(clean, "bin", "python"), version)
    out, errors, status = said(place, [os.path.join(clean, "bin", "vrptw-plan"), "i.txt", "--into", "day", "--seconds",
                                       "20"])
    demand(status in (0, 1) and all(line.startswith("vrptw-plan: note: ") for line in errors.splitlines())
           and os.path.isfile(os.path.join(place, "day/now/report.html")),
           "vrptw-plan: status %d, %r, %r" % (status, out, errors))
    return "wheel, " + judge_typed(place, os.path.join(clean, "bin", "python"))


def judge_typed(folder, python):
    """A program that is typed by the installed module, and the module itself, where mypy is there."""
    if shutil.which("mypy", path="/usr/bin:/bin") is None:
        return "types left out"
    put(os.path.join(folder, "typed.py"), TYPED.encode())
    common = ["mypy", "--strict", "--cache-dir", os.path.join(folder, "cache")]
    demanded(folder, [*common, "--python-executable", python, "--python-version", "3.10", "typed.py"])
    demanded(folder, [*common, "--python-version", "3.9", os.path.join(OUTSIDE, "vrptw")])
    return "typed"


def judge_prefix(folder, random):
    """What `make install` puts below a prefix, and that `make uninstall` takes it away."""
    if shutil.which("make", path="/usr/bin:/bin") is None:
        return "left out, no make is here"
    prefix, place = os.path.join(folder, "a prefix"), os.path.join(folder, "place")
    words = ["make", "--no-print-directory", "-C", TOP, "PREFIX=" + prefix, "PYTHON=" + sys.executable]
    told = demanded(folder, [*words, "install"]).rstrip("\n")
    os.mkdir(place)
    version = compared(drawn(place, random), os.path.join(prefix, "bin"))
    judge_asked(place, sys.executable, version, {"PYTHONPATH": told.rpartition(" and the module in ")[2]})
    if shutil.which("man", path="/usr/bin:/bin"):
        page = demanded(place, ["man", "-w", "vrptw"], more={"MANPATH": os.path.join(prefix, "share", "man")})
        demand(page.startswith(prefix), "man finds %r" % page)
    demanded(folder, [*words, "uninstall"])
    left = [os.path.join(at, name) for at, _, files in os.walk(prefix) for name in files]
    demand(not left, "make uninstall leaves %s" % left)
    empty = subprocess.run([sys.executable, os.path.join(TOP, "release", "install"), ""], cwd=place,
                           stdout=subprocess.PIPE, stderr=subprocess.PIPE)
    demand(empty.returncode == 2 and b"PREFIX: met nothing" in empty.stderr, "no PREFIX: %r" % (empty,))
    return "prefix"


def judge_copies(folder, random):
    """Copies of the module beside a program, around one, and where a link to the launcher is on the path."""
    drawn(folder, random)
    for place, program in (("beside", "vrptw-x86_64-linux"), ("around", "vrptw/vrptw"), ("path", None)):
        shutil.copytree(os.path.join(OUTSIDE, "vrptw"), os.path.join(folder, place, "vrptw"))
        if program:
            shutil.copy(RELEASED, os.path.join(folder, place, program))
    copy = os.path.join(folder, "copy")
    shutil.copytree(os.path.join(TOP, "release"), os.path.join(copy, "release"))
    shutil.copy(os.path.join(TOP, "vrptw"), copy)
    os.mkdir(os.path.join(folder, "links"))
    os.symlink(os.path.join(copy, "vrptw"), os.path.join(folder, "links", "vrptw"))
    for place in ("beside", "around", "path"):
        judge_asked(folder, sys.executable, vrptw.__version__,
                    {"PYTHONPATH": os.path.join(folder, place), "PATH": "%s/links:/usr/bin:/bin" % folder
                     if place == "path" else "/usr/bin:/bin"})
    return "copies"


def completed(folder, *words):
    """What bash completes the last of some words to."""
    asked = ("source '%s/docs/completions/vrptw'; COMP_WORDS=(%s); COMP_CWORD=%d; _vrptw; "
             "printf '%%s\\n' \"${COMPREPLY[@]}\"" % (TOP, " ".join("'%s'" % word for word in words), len(words) - 1))
    return set(demanded(folder, ["/bin/bash", "-c", asked]).split())


def judge_completions(folder, random):
    """Each option of the help stands in the file of each shell, and those shells that are there take their file."""
    texts = {name: (got(os.path.join(TOP, "docs", "completions", name)) or b"").decode()
             for name in ("vrptw", "_vrptw", "vrptw.fish")}
    put(os.path.join(folder, "a plan.txt"), b"")
    for command in SUBCOMMANDS:
        told = [words.split()[-2 if "<" in words else -1] for words, _ in Help(RELEASED, [command]).entries
                if words.startswith("-")]
        for option in told:
            right = {"vrptw": option, "_vrptw": option, "vrptw.fish": " -l " + option[2:]}
            demand(all(word in texts[name] for name, word in right.items()), "the completions lack %s" % option)
            demand(option in completed(folder, "vrptw", command, option[:random.randint(2, len(option))]), option)
        demand(command in completed(folder, "vrptw", command[:2]), command)
    for words in (("solve", "--start", "a"), ("solve", "--start", "=", "a"), ("check", "a")):
        demand(completed(folder, "vrptw", *words) == {"a", "plan.txt"}, "%s" % (words,))
    demand(completed(folder, "vrptw", "solve", "--turns", "") == set(), "a number is completed")
    demand("-F _vrptw vrptw" in demanded(folder, ["/bin/bash", "-c", "source '%s/docs/completions/vrptw'; complete -p "
                                                  "vrptw" % TOP]), "complete -p")
    shells = 0
    for shell, name in (("zsh", "_vrptw"), ("fish", "vrptw.fish")):
        if shutil.which(shell, path="/usr/bin:/bin"):
            demanded(folder, [shell, "-n", os.path.join(TOP, "docs", "completions", name)])
            shells += 1
    return "completions of bash and %d more" % shells


PARTS = (judge_wheel, judge_prefix, judge_copies, judge_completions)


def judge_package(folder, random, seed):
    """One part of the package, in turn."""
    return PARTS[seed % len(PARTS)](folder, random)


KINDS = {
    "package": Kind("the package: a wheel in a clean environment, make install, copies of the module, completions",
                    len(PARTS), lambda programs, folder, random, seed: judge_package(folder, random, seed)),
}
