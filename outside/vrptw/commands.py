"""The commands of the package: `vrptw` runs the launcher of the program, `vrptw-plan` and its like the tools."""
from __future__ import annotations

import functools
import os
import signal
import sys
from typing import Callable

from .running import home

# The signals that wait until a tool takes them, where it says so by beginning as a script of the shell.
STOPPING = (signal.SIGINT, signal.SIGTERM, signal.SIGHUP)


def in_home(*names: str) -> str:
    """The path of a file of the package; a copy of the module alone has none."""
    top = home()
    if top is None:
        sys.exit("vrptw: the module stands here alone, without its launcher and tools")
    return os.path.join(top, *names)


def program() -> None:
    """Runs the launcher in the place of this process."""
    launcher = in_home("vrptw")
    signal.signal(signal.SIGPIPE, signal.SIG_DFL)
    os.execv(launcher, [launcher, *sys.argv[1:]])


def run_tool(name: str) -> None:
    """Runs a tool in this process, as if it was called by its path."""
    path = in_home("outside", name)
    with open(path, "rb") as file:
        text = file.read()
    if text.startswith(b"#!/bin/sh\n"):
        signal.pthread_sigmask(signal.SIG_BLOCK, STOPPING)
    sys.path.insert(0, os.path.dirname(path))
    sys.argv[0] = "vrptw-" + name
    exec(compile(text, path, "exec"), {"__name__": "__main__", "__file__": path})


def __getattr__(name: str) -> Callable[[], None]:
    """The function of a command, by the name of its tool."""
    top = home()
    if name.startswith("_") or top is None or not os.path.isfile(os.path.join(top, "outside", name)):
        raise AttributeError("vrptw has no tool %s" % name)
    return functools.partial(run_tool, name)
