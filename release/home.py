"""What the program and the tools need without the sources: the files that setup.py puts into the wheel, and `install`
below a prefix."""
import os

TOP = os.path.dirname(os.path.dirname(os.path.realpath(__file__)))
RELEASE = ("made-from", "sources.sh", "vrptw-x86_64-linux", "vrptw-x86_64-linux.sha256", "which")
# The folders of outside that tools import from, with what runs elsewhere.
FOLDERS = ("reference", "tools")
# The manual page, the completions and the schema, and where systems look for them below a prefix.
SHARED = {"docs/vrptw.1": "share/man/man1", "docs/completions/vrptw": "share/bash-completion/completions",
          "docs/completions/_vrptw": "share/zsh/site-functions",
          "docs/completions/vrptw.fish": "share/fish/vendor_completions.d", "docs/timetable.schema.json": "share/vrptw"}


def listed(folder):
    """The files of a folder without what Python or an editor left there."""
    found = sorted(os.listdir(os.path.join(TOP, folder)))
    return [name for name in found if os.path.isfile(os.path.join(TOP, folder, name)) and name[-1] != "~"
            and not name.startswith(".")]


def tools():
    """The names of the commands for users. What judges the program needs the sources."""
    return [name for name in listed("outside") if "." not in name and name != "run"]


def home_files():
    """Paths below the top of the repository, which are the same in the wheel and below a prefix."""
    return (["vrptw", *("release/" + name for name in RELEASE), *("outside/" + name for name in tools())]
            + ["outside/%s/%s" % (folder, name) for folder in FOLDERS for name in listed("outside/" + folder)])


def module_files():
    """Those of the module for Python."""
    return ["outside/vrptw/" + name for name in listed("outside/vrptw")]
