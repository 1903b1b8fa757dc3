"""The folder of a plan: its texts are whole at each moment, and what is new is moved into place by a rename."""
import fcntl
import os
import shutil
import tempfile

from tools.tool import Refused, reason_of

INSTANCE, NAMES, PLAN, CERTIFICATE = "instance.txt", "names.csv", "plan.txt", "certificate.txt"
TEXTS = (INSTANCE, NAMES, PLAN, CERTIFICATE)
# The certificate of the last round with each count of neighbours, whose tree the next one goes on from.
TREES = {neighbours: "tree_%d.txt" % neighbours for neighbours in range(16)}
# Where texts stand until they are checked.
WORK = ".plan_"


# So many bytes are tried where the program couldn't write a file.
TRIED = 1 << 16


def lack_of(path):
    """Why nothing can be written beside a path, in words; None where it can be."""
    try:
        with tempfile.TemporaryFile(dir=os.path.dirname(path)) as file:
            file.write(bytes(TRIED))
            file.flush()
    except OSError as fault:
        return reason_of(fault)


class Folder:
    """A folder that one command at a time works in."""

    def __init__(self, path):
        self.path, self.top, self.is_new = path, path, not os.path.isdir(path)
        try:
            os.makedirs(path, exist_ok=True)
            self.lock = os.open(path, os.O_RDONLY)
            fcntl.flock(self.lock, fcntl.LOCK_EX | fcntl.LOCK_NB)
        except BlockingIOError:
            raise Refused("%s: met another plan at work there, wanted one at a time" % path)
        except OSError as fault:
            raise Refused("%s: %s" % (path, reason_of(fault)))
        self.clear()
        try:
            self.work = tempfile.mkdtemp(prefix=WORK, dir=path)
        except OSError as fault:
            raise Refused("%s: %s" % (path, reason_of(fault)))

    def killed(self):
        """Where texts stand that a command left that was killed."""
        return [os.path.join(self.top, name) for name in sorted(os.listdir(self.top)) if name.startswith(WORK)]

    def clear(self):
        """Takes away what a command left that was killed."""
        for path in self.killed():
            shutil.rmtree(path, ignore_errors=True)

    def __enter__(self):
        return self

    def __exit__(self, *fault):
        shutil.rmtree(self.work, ignore_errors=True)
        if self.is_new and not os.listdir(self.top):
            os.rmdir(self.top)
        os.close(self.lock)

    def at(self, name):
        """Where a text stands."""
        return os.path.join(self.path, name)

    def beside(self, name):
        """Where a text stands until it is checked."""
        return os.path.join(self.work, name)

    def held(self, name):
        """What a text holds, or None where it isn't there."""
        try:
            with open(self.at(name), "rb") as file:
                return file.read()
        except FileNotFoundError:
            return None
        except OSError as fault:
            raise Refused("%s: %s" % (self.at(name), reason_of(fault)))

    def put_instance(self, text):
        """Puts the instance into place; another one that stands there is refused."""
        if self.held(INSTANCE) not in (None, text):
            raise Refused("%s: met another instance, wanted the same, or another DIR" % self.at(INSTANCE))
        self.put(INSTANCE, text)

    def put_beside(self, name, text):
        """Writes a text beside; answers its path."""
        try:
            with open(self.beside(name), "wb") as file:
                file.write(text)
                file.flush()
                os.fsync(file.fileno())
        except OSError as fault:
            raise Refused("%s: %s" % (self.at(name), reason_of(fault)))
        return self.beside(name)

    def take(self, *names):
        """Moves texts from beside into place."""
        for name in names:
            try:
                os.replace(self.beside(name), self.at(name))
            except OSError as fault:
                raise Refused("%s: %s" % (self.at(name), reason_of(fault)))

    def put(self, name, text):
        """Writes a text that is in place whole or not at all."""
        self.put_beside(name, text)
        self.take(name)

    def drop(self, name):
        """Takes a text, or a folder of texts, away that isn't of this instance."""
        if os.path.isdir(self.at(name)):
            shutil.rmtree(self.at(name), ignore_errors=True)
        elif os.path.lexists(self.at(name)):
            os.remove(self.at(name))
