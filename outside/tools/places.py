"""Where the repository and its programs stand; the program that tools run is found by the module vrptw."""
import os
import re
import sys

OUTSIDE = os.path.dirname(os.path.dirname(os.path.realpath(__file__)))
TOP = os.path.dirname(OUTSIDE)
RELEASED = os.path.join(TOP, "release", "vrptw-x86_64-linux")
INSTRUMENTS = os.path.join(TOP, "crates", "instruments", "out", "instruments")

# A command of ours as texts name it, when they speak of it from the top of the repository.
NAMED = re.compile(r"(?<![^\s(`>])(?:outside/([a-z_]+)(?![\w/]|\.\w)|\./(vrptw)\b)")


def is_installed():
    """Whether the tool was called as a command of the package, by a name like vrptw-plan."""
    return os.path.basename(sys.argv[0]).startswith("vrptw-")


def as_called(text):
    """A text with our commands by the names that they have for who called this one."""
    return NAMED.sub(lambda found: found[2] or "vrptw-" + found[1], text) if is_installed() else text
