"""What this machine knows of the folder of a batch, kept where only its user writes: which texts of instances were
given, and what the check said of texts."""
import hashlib
import os
import re

from tools.foreign import content
from tools.tool import content as read_file

GIVEN = re.compile(r"given ([0-9a-f]{64}) ([A-Za-z0-9_.-]+)\Z")
CHECKED = re.compile(r"checked ([0-9a-f]{64}) ((?:BEST|GAP|BOUND|NO PLAN)(?: [0-9.]+){0,2})\Z")


def sum_of(held):
    return hashlib.sha256(held).hexdigest()


def own_folder():
    """Where this user's programs keep what they know."""
    kept = os.environ.get("XDG_STATE_HOME", "")
    return os.path.join(kept if os.path.isabs(kept) else os.path.expanduser("~/.local/state"), "vrptw")


class Known:
    """What is known of a folder, and the program that checks. What can't be kept is checked again by the next call."""

    def __init__(self, into, program):
        self.path = os.path.join(own_folder(), "batch_%s.txt" % sum_of(os.fsencode(os.path.realpath(into)))[:16])
        self.program, self.given, self.verdicts = sum_of(read_file(program)), {}, {}
        for line in content(self.path).decode(errors="replace").split("\n"):
            given, checked = GIVEN.match(line), CHECKED.match(line)
            if given:
                self.given[given[2]] = given[1]
            elif checked:
                self.verdicts[checked[1]] = checked[2]

    def keep(self, line):
        """Adds a line to what is kept."""
        try:
            os.makedirs(os.path.dirname(self.path), mode=0o700, exist_ok=True)
            with open(os.open(self.path, os.O_WRONLY | os.O_APPEND | os.O_CREAT | os.O_NOFOLLOW, 0o600), "wb") as file:
                file.write(line.encode() + b"\n")
        except OSError:
            pass

    def give(self, name, held):
        """Notes the text of an instance as it was given."""
        if self.given.get(name) != sum_of(held):
            self.given[name] = sum_of(held)
            self.keep("given %s %s" % (self.given[name], name))

    def key(self, texts):
        """What stands for texts and the program that judges them."""
        return sum_of(" ".join([self.program, *map(sum_of, texts)]).encode())

    def verdict(self, texts):
        """What the check said of texts, or None."""
        return self.verdicts.get(self.key(texts))

    def note(self, texts, line):
        """Keeps what the check said of texts that are right."""
        self.verdicts[self.key(texts)] = line
        if CHECKED.match("checked %s %s" % (self.key(texts), line)):
            self.keep("checked %s %s" % (self.key(texts), line))
