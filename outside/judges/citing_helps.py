"""What the help of a command cites, and whether it stands there: paths that begin at the top of the repository."""
import os
import subprocess

from judges.citing import Document

FOLDERS = ("outside", "outside/workshop", "bench")
PROGRAM, SUBCOMMANDS = "release/vrptw-x86_64-linux", ([], ["solve"], ["check"])
# What may stand around a path.
AROUND = "`'\".,;:|[]()<>"


class Help(Document):
    """The help of a command, by the words that print it."""

    def __init__(self, sources, words):
        super().__init__(sources, " ".join([*words, "--help"]))
        self.words = [os.path.join(sources.top, words[0]), *words[1:], "--help"]

    def judge(self):
        came = subprocess.run(self.words, stdin=subprocess.DEVNULL, stdout=subprocess.PIPE, stderr=subprocess.STDOUT)
        if came.returncode:
            self.lacks.append("%s: status %d" % (self.path, came.returncode))
        for self.line, text in enumerate(came.stdout.decode(errors="replace").split("\n"), 1):
            for word in text.split():
                path = word.strip(AROUND)
                if "/" in path and os.path.exists(os.path.join(self.sources.top, path.split("/")[0] or "none")):
                    self.judge_path(path, ("",))


def helps(sources):
    """The helps of all commands and of the program, looked through."""
    calls = [[PROGRAM, *words] for words in SUBCOMMANDS]
    for folder in FOLDERS:
        for name in sorted(os.listdir(os.path.join(sources.top, folder))):
            path = os.path.join(folder, name)
            whole = os.path.join(sources.top, path)
            calls += [[path]] if os.path.isfile(whole) and os.access(whole, os.X_OK) else []
    judged = [Help(sources, words) for words in calls]
    for one in judged:
        one.judge()
    return judged
