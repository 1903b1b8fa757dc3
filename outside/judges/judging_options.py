"""Each tool with each of its options: the parser of a tool says which there are, and each one needs rows."""
import json
import os
import shlex
import sys

from cases.limited_cases import LIMITED_ROWS, MANY
from cases.option_cases import ANY, FAKES, FEW, MORE, OPTION_ROWS
from judges.judging_faults import fitted_out
from judges.kind import Kind, number_by
from judges.running import demand, got, put, run, shown
from tools.places import OUTSIDE, TOP
from tools.tool import path_of

# Prints the options of a command, and whether each one takes a value, without running it.
ASK = """
import json, runpy, sys
parser = runpy.run_path(sys.argv[1], run_name="asked")["parser"]()
print(json.dumps([[action.option_strings, action.nargs != 0] for action in parser._actions if action.option_strings]))
"""


def is_asked(folder, name):
    """Whether a file is a command with a parser: each one of outside/ and its workshop, and of bench/ those in Python
    that use one."""
    path = os.path.join(TOP, folder, name)
    if not os.path.isfile(path) or not os.access(path, os.X_OK):
        return False
    with open(path, encoding="utf-8") as file:
        text = file.read()
    return folder != "bench" or "python" in text.split("\n")[0] and ("parser" in text or "argparse" in text)


FOLDERS = ("outside", "outside/workshop", "bench")
# The commands, as rows have them, and then the rows.
COMMANDS = [name if folder == "outside" else "%s/%s" % (folder, name) for folder in FOLDERS
            for name in sorted(os.listdir(os.path.join(TOP, folder))) if is_asked(folder, name)]
OPTIONS = [("covered", name) for name in COMMANDS] + [("help", name) for name in COMMANDS] + (
    OPTION_ROWS + LIMITED_ROWS)


def options_of(command):
    """The options of a command: all spellings of each, and whether it takes a value."""
    out, errors, status = run([sys.executable, "-B", "-c", ASK, os.path.join(TOP, path_of(command))],
                              {"PYTHONPATH": OUTSIDE})
    demand(status == 0, "%s has no parser: %s" % (command, shown(errors)))
    return [(set(spellings), takes) for spellings, takes in json.loads(out)]


def called(words):
    """The command that a row calls last, and the options that it has there."""
    command, *rest = shlex.split(words.split(" ; ")[-1])
    return command, {word.split("=")[0] for word in rest}


def judge_covered(command):
    """Each option has a row with a right value, and one with a wrong one where it takes a value that may be wrong."""
    rights, wrongs = {"--help"}, set(ANY)
    for kind, words, *told in OPTION_ROWS:
        for call in words.split(" ; "):
            name, found = called(call)
            if name == command and kind == "right":
                rights |= found
            elif name == command:
                wrongs.add(told[0])
    for spellings, takes in options_of(command):
        told = " or ".join(sorted(spellings))
        demand(spellings & rights, "%s: no row runs %s" % (command, told))
        demand(not takes or spellings & wrongs, "%s: no row has a wrong value of %s" % (command, told))


def laid_out(folder):
    """Makes the files that the rows are about, and the programs that stand for others."""
    fitted_out(folder)
    for name in ("fakes", "few"):
        os.mkdir(os.path.join(folder, name))
    for name, text in MORE.items():
        os.makedirs(os.path.dirname(os.path.join(folder, name)), exist_ok=True)
        put(os.path.join(folder, name), text.encode())
    for place, programs in (("fakes", FAKES), ("few", FEW)):
        for name, text in programs.items():
            path = os.path.join(folder, place, name)
            put(path, ("#!/bin/bash\n%s\n" % text).encode())
            os.chmod(path, 0o755)


def said(folder, words):
    """What the last one of some calls says on standard output and standard error, and its status."""
    for call in words.split(" ; "):
        command, _, rest = call.partition(" ")
        path = folder + "/few" if "/try_" in command else "%s/fakes:%s" % (folder, os.environ["PATH"])
        put(os.path.join(folder, "command"), ("cd '%s' && PATH='%s' && exec '%s'/%s %s\n" % (
            folder, path, TOP, path_of(command), rest)).encode())
        out, errors, status = run(["/bin/bash", os.path.join(folder, "command")])
    return shown(out), shown(errors), status


def judge_right(folder, program, words, status, promises):
    """The status, what is promised, and on standard error nothing but what the tools tell."""
    words = words.replace("{program}", shlex.quote(program))
    out, errors, came = said(folder, words)
    demand(came == int(status), "%s: status %d, %r" % (words, came, errors))
    demand(all(line.startswith(("outside/", "bench/")) for line in errors.splitlines()), "%s: %r" % (words, errors))
    for promise in promises.split(" & "):
        name, _, part = promise.partition(": ")
        streams = {"-": out, "--": errors}
        text = streams[name] if name in streams else shown(got(os.path.join(folder, name)) or b"")
        demand(text and part in text, "%s: %s has %r, and %r is right" % (words, name, text[:500], part or "a text"))


def judge_wrong(folder, words, status, part):
    """One line, nothing on standard output, and no file that wasn't there."""
    before = set(os.listdir(folder)) | {"command"}
    out, errors, came = said(folder, words)
    head = path_of(called(words)[0]) + (": words: " if status == "2" else ": ")
    demand((out, came, errors.count("\n")) == ("", int(status), 1) and errors.startswith(head) and part in errors,
           "%s: status %d, %r and %r, and %r is right" % (words, came, out, errors, part))
    more = set(os.listdir(folder)) - before
    demand(not more, "%s wrote %s" % (words, more))


def judge_limited(folder, words, limit, part):
    """One line on standard error, by way of a stream that has no limit, and the status 1."""
    put(os.path.join(folder, "many.csv"), MANY.encode())
    command, _, rest = words.partition(" ")
    put(os.path.join(folder, "command"), (
        "cd '%s'\n(ulimit %s; exec '%s'/%s %s) 2>&1 | cat\nexit ${PIPESTATUS[0]}\n" % (
            folder, limit, TOP, path_of(command), rest)).encode())
    out, _, status = run(["/bin/bash", os.path.join(folder, "command")])
    out = shown(out)
    demand(status == 1 and out.count("\n") == 1 and out.startswith(path_of(command) + ": ") and part in out,
           "%s by ulimit %s: status %d, %r, and %r is right" % (words, limit, status, out[-900:], part))


def judge_options(program, folder, seed):
    """One row, or one command."""
    kind, words, *told = OPTIONS[seed]
    laid_out(folder)
    if kind == "covered":
        judge_covered(words)
    elif kind == "help":
        out, errors, status = said(folder, words + " --help")
        lacks = [spelling for spellings, _ in options_of(words) for spelling in spellings if spelling not in out]
        demand((errors, status, lacks) == ("", 0, []), "%s --help: %r, without %s" % (words, errors, lacks))
    elif kind == "right":
        judge_right(folder, program, words, *told)
    elif kind == "limited":
        judge_limited(folder, words, *told)
    else:
        judge_wrong(folder, words, *told[1:])
    return kind


KINDS = {
    "options": Kind("each tool with each of its options, by its parser: right values and wrong ones", len(OPTIONS),
                    number_by(judge_options), is_fixed=True),
}
