"""The manual page of the program, from what its help says and from docs/formats.md."""
import re

from tools.judged import ran
from tools.tool import Refused

SUBCOMMANDS = ("solve", "check")
# A part of a program's help: the words of an argument or an option, and what is told of it.
ENTRY = re.compile(r"^ +(<\w+>|-.*?)  +(\S.*)$")
SEE_ALSO = ["docs/formats.md has the texts, docs/tutorial.md shows the program at work, and outside/README.md has the",
            "tools for other layouts, timetables and pictures."]
SPAN = re.compile(r"`([^`]*)`")


def roff(text):
    """A line of text as the page has it: what is between backticks bold, and no sign with a meaning of its own."""
    plain = text.replace("\\", "\\e").replace("-", "\\-")
    line = SPAN.sub(lambda found: "\\fB%s\\fR" % found[1], plain)
    return "\\&" + line if line[:1] in (".", "'") else line


def said(program, *words):
    """The lines that the program prints, which has nothing else to say; another one is refused."""
    came = ran([program, *words])
    if came.status or came.errors:
        refuse(program, "the status %d of %s" % (came.status, " ".join(words)))
    return came.out.decode(errors="backslashreplace").split("\n")


def refuse(program, met):
    raise Refused("%s: met %s, wanted a program with the help of vrptw" % (program, met))


class Help:
    """What the help of the program or of one of its commands says: what it does, its usage, and its entries."""

    def __init__(self, program, words=()):
        lines = said(program, *words, "--help")
        usages = [line[len("Usage: "):] for line in lines if line.startswith("Usage: ")]
        if len(usages) != 1:
            refuse(program, "a help without usage")
        self.about, self.usage = lines[0], usages[0]
        self.entries = [ENTRY.match(line).groups() for line in lines if ENTRY.match(line)]


def between(document, head, foot):
    """The lines of a document from behind the line head to the line that begins with foot."""
    lines = document.split("\n")
    begin = lines.index(head) + 1
    end = next((at for at in range(begin, len(lines)) if lines[at].startswith(foot)), len(lines))
    return lines[begin:end]


def example(document):
    """The example of formats.md: paragraphs, and the texts that are set in."""
    for block in "\n".join(between(document, "## An example", "## ")).strip("\n").split("\n\n"):
        if block.startswith("    "):
            yield from (".RS 4", ".nf", *(roff(line[4:]) for line in block.split("\n")), ".fi", ".RE")
        else:
            yield from (".PP", roff(block))


def rows(lines):
    """The cells of a table's rows, without its head."""
    found = [[cell.strip() for cell in line.strip("|").split("|")] for line in lines if line.startswith("|")]
    return found[2:]


def listed(pairs):
    """A list of words and what is told of each."""
    for words, meaning in pairs:
        yield from (".TP", roff(words), roff(meaning) + ".")


def entries(told):
    """The arguments and the options of a command."""
    return listed(("`%s`" % words, meaning) for words, meaning in told.entries)


def page(program, document):
    """The lines of the page."""
    whole, told = Help(program), [Help(program, [name]) for name in SUBCOMMANDS]
    version = " ".join(said(program, "--version")[0].split()[:2])
    errors = rows(between(document, "Standard error, one line:", "A NAME "))
    output = next(line for line in document.split("\n") if line.startswith("Standard output: "))
    found = ['.TH VRPTW 1 "" "%s"' % version, ".SH NAME", roff("vrptw - " + whole.about[0].lower() + whole.about[1:]),
             ".SH SYNOPSIS"]
    for help_ in told:
        found += [roff("`%s`" % help_.usage), ".br"]
    found += [".SH DESCRIPTION", roff(whole.about) + ".", *entries(whole)]
    for help_ in told:
        found += [".SS " + help_.usage.split()[1], roff(help_.about) + ".", *entries(help_)]
    found += [".SH OUTPUT", roff(output), ".SH DIAGNOSTICS", "One line on standard error:"]
    found += listed((line, "Status %s: %s" % (status, meaning)) for line, meaning, status in errors)
    found += [".PP", roff(next(line for line in document.split("\n") if line.startswith("A NAME ")))]
    return "\n".join(found + [".SH EXAMPLE", *example(document), ".SH SEE ALSO", *SEE_ALSO, ""])
