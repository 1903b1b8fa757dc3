"""The commands and programs of the tutorial and of the page on other programs, run one after the other in a folder, and
what the pages say that comes of them."""
import os
import re

from judges.kind import Kind
from judges.running import demand, got, put, run, shown
from tools.completions import completions
from tools.manual import page
from tools.places import TOP

BLOCK = re.compile(r"^```console\n(.*?)^```$", re.M | re.S)
# A program in Python, and what it prints.
PROGRAM = re.compile(r"^```python\n(.*?)^```\n\n```text\n(.*?)^```$", re.M | re.S)
# What is said where the status is 1.
NOT_DONE = (": met ", "There is no plan")
ROW = re.compile(r"^\| [^|]*`(--[^`]*)` \|", re.M)


def commands(text):
    """Each command of a text with the lines that stand below it."""
    for block in BLOCK.findall(text):
        for part in re.split(r"^\$ ", block, flags=re.M)[1:]:
            command, _, output = part.partition("\n")
            yield command, output


def fits(output, told):
    """Whether an output is what is told, where three points stand for any end of it."""
    return output.startswith(told[:-len("...\n")]) if told.endswith("...\n") else output == told


def fitted_out(program, folder):
    """Puts into the folder what the commands need from the top of the repository."""
    for name in ("outside", "examples"):
        os.symlink(os.path.join(TOP, name), os.path.join(folder, name))
    os.symlink(os.path.abspath(program), os.path.join(folder, "vrptw"))


def said(folder, command):
    """What a command says on both streams, and its status, in a folder."""
    put(os.path.join(folder, "command"), ("cd '%s'\nexec 2>&1\n%s\n" % (folder, command)).encode())
    out, _, status = run(["/bin/bash", os.path.join(folder, "command")])
    return shown(out) if out.isascii() else out.decode(), status


def judge_tutorial(program, folder):
    """Each command ends as the page says, and each row of its table has options that the program takes."""
    told_there = held("tutorial.md")
    fitted_out(program, folder)
    found = list(commands(told_there))
    demand(len(found) >= 15, "the tutorial has %d commands" % len(found))
    place = folder
    for command, told in found:
        if command.startswith("cd "):
            place = os.path.join(place, command[3:])
            continue
        output, status = said(place, command)
        is_open = told.startswith("GAP") or any(words in told for words in NOT_DONE)
        demand(fits(output, told) and status == is_open, "$ %s: status %d, %r" % (command, status, output))
    rows = ROW.findall(told_there)
    demand(len(rows) >= 10, "the tutorial has %d rows of options" % len(rows))
    for options in rows:
        output, status = said(place, "../vrptw solve dozen.txt p.txt c.txt " + options)
        demand((output, status) == ("BEST 173.2\n", 0), "%s: status %d, %r" % (options, status, output))
    return "%d commands, %d rows of options" % (len(found), len(rows))


def judge_embedding(program, folder):
    """Each command and each program of the page on other programs ends as it says."""
    told_there = held("embedding.md")
    fitted_out(program, folder)
    programs, found = PROGRAM.findall(told_there), list(commands(told_there))
    demand(len(programs) >= 4 and len(programs) == told_there.count("```python") and len(found) >= 4,
           "the page has %d programs and %d commands" % (len(programs), len(found)))
    for text, told in programs:
        put(os.path.join(folder, "program.py"), text.encode())
        output, status = said(folder, "PYTHONPATH=outside python3 program.py")
        demand(fits(output, told) and status == 0, "%s: status %d, %r" % (text, status, output))
    for command, told in found:
        output, status = said(folder, command)
        demand(fits(output, told) and status == 0, "$ %s: status %d, %r" % (command, status, output))
    return "%d programs, %d commands" % (len(programs), len(found))


def held(name):
    with open(os.path.join(TOP, "docs", name), encoding="utf-8") as file:
        return file.read()


def judge_instances():
    """The files of bench/instances are what bench/make_instances makes."""
    out, errors, status = run([os.path.join(TOP, "bench", "make_instances"), "--check"])
    demand((out, errors, status) == (b"", b"", 0), "bench/make_instances: %s" % shown(out + errors))
    out = run([os.path.join(TOP, "bench", "make_instances"), "--other", "C2-50-7050"])[0]
    demand(out == got(os.path.join(TOP, "bench", "instances", "c2_50.txt")), "--other: %s" % shown(out))
    return "as they are made"


def judge_manual(program):
    """The manual page and the completions are what the program's help makes of them."""
    demand(held("vrptw.1") == page(program, held("formats.md")), "docs/vrptw.1 isn't what outside/workshop/manual prints")
    for name, text in completions(program).items():
        demand(held("completions/" + name) == text, "outside/workshop/completions writes another %s" % name)
    return "as the help says"


KINDS = {
    "tutorial": Kind("each command of docs/tutorial.md, and each one and each program of docs/embedding.md", 2,
                     lambda programs, folder, random, seed:
                         (judge_tutorial, judge_embedding)[seed](programs.program, folder), is_fixed=True),
    "instances": Kind("bench/instances against what bench/make_instances makes", 1,
                      lambda programs, folder, random, seed: judge_instances(), is_fixed=True),
    "manual": Kind("docs/vrptw.1 and docs/completions against the program's help", 1,
                   lambda programs, folder, random, seed: judge_manual(programs.program), is_fixed=True),
}
