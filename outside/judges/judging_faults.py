"""One row of the tools with files that fail, or with wrong words."""
import os
import re

from cases.tool_faults import FAULTS, FILES
from judges.judging_layouts import demand_refusal, demand_refusals
from judges.kind import Kind
from judges.running import demand, got, put, run, shown
from tools.places import OUTSIDE


def fitted_out(folder):
    for name, text in FILES.items():
        put(os.path.join(folder, name), text.encode())
    os.mkdir(os.path.join(folder, "folder"))
    os.symlink("i.txt", os.path.join(folder, "link.txt"))


def said(folder, command):
    """What a tool says on standard output and standard error, and its status, in the folder."""
    put(os.path.join(folder, "command"), ("cd '%s' && exec '%s'/%s\n" % (folder, OUTSIDE, command)).encode())
    out, errors, status = run(["/bin/bash", os.path.join(folder, "command")])
    return out, shown(errors), status


def judge_refused(folder, words, path, line, part):
    came = said(folder, words)
    if line == "0":
        right = "outside/%s: %s: %s\n" % (words.split()[0], path, part)
        demand(came == (b"", right, 1), "%s: %r, and %r is right" % (words, came, right))
    else:
        # Of a table all faults are told.
        judge = demand_refusals if path.endswith(".csv") else demand_refusal
        judge(words.split()[0], path, int(line), came)
        demand(part in came[1], "%s: %r, and it is of %r" % (words, came, part))
    held = {name: got(os.path.join(folder, name)) for name in FILES}
    demand(all(held[name] == text.encode() for name, text in FILES.items()), "%s changed a file" % words)
    others = set(os.listdir(folder)) - set(FILES) - {"folder", "link.txt", "command"}
    demand(not others, "%s wrote %s" % (words, others))


def judge_fault(folder, seed):
    """One row."""
    kind, words, *told = FAULTS[seed]
    fitted_out(folder)
    if kind == "refused":
        judge_refused(folder, words, *told)
        return "refused"
    if kind == "words":
        out, errors, status = said(folder, words)
        demand((out, status, errors.count("\n")) == (b"", 2, 1) and told[0] in errors, "%s: %r" % (words, errors))
    elif kind == "noted":
        out, errors, status = said(folder, words)
        head = "outside/%s: note: " % words.split()[0]
        demand(out and status == 0 and all(line.startswith(head) for line in errors.splitlines())
               and told[0] in errors, "%s: status %d, %r" % (words, status, errors))
    elif kind == "why":
        came, right = said(folder, "why " + words), ("\n".join(told[1] + [""]).encode(), "", told[0])
        demand(came == right, "why %s: %r, and %r is right" % (words, came, right))
    elif kind == "printed":
        out, errors, status = said(folder, words)
        demand((shown(out), status) == (told[0], 0), "%s: status %d, %r, %r" % (words, status, out, errors))
    elif kind == "help":
        out, errors, status = said(folder, words + " --help")
        demand((errors, status) == ("", 0) and re.search(rb"\nExample: outside/%s " % words.encode(), out), "help")
    else:
        out, errors, status = said(folder, words + (" > /dev/full" if kind == "full" else " >&-"))
        demand((out, status, errors.count("\n")) == (b"", 1, 1) and "standard output" in errors, "%s: %r" % (
            words, errors))
    return kind


KINDS = {
    "tool_faults": Kind("the tools with files that fail and with wrong words", len(FAULTS),
                        lambda programs, folder, random, seed: judge_fault(folder, seed), is_fixed=True),
}
