"""Files that others may have written: what is no plain file, can't be read or is too large counts as absent."""
import os
import shutil
import stat

from tools.tool import Refused, reason_of

# No text of ours is larger than the first, in bytes, and no word or log of a step that is read than the second.
LARGEST, LARGEST_LOG = 1 << 30, 1 << 27


def is_plain(path, most=LARGEST):
    """Whether a path is a file of at most so many bytes, and no link, pipe or folder."""
    try:
        found = os.lstat(path)
    except (OSError, ValueError):
        return False
    return stat.S_ISREG(found.st_mode) and found.st_size <= most


def content(path, most=LARGEST):
    """What a plain file holds; nothing where there is none."""
    if not is_plain(path, most):
        return b""
    try:
        with open(os.open(path, os.O_RDONLY | os.O_NOFOLLOW | os.O_NONBLOCK | os.O_CLOEXEC), "rb") as file:
            return file.read(most)
    except OSError:
        return b""


def is_own_folder(path):
    """Whether a path is a folder, and no link to one."""
    return os.path.isdir(path) and not os.path.islink(path)


def drop(path):
    """Takes away what stands at a path, whatever it is; of a link that alone."""
    try:
        if is_own_folder(path):
            shutil.rmtree(path)
        elif os.path.lexists(path):
            os.remove(path)
    except OSError as fault:
        raise Refused("%s: %s" % (path, reason_of(fault)))


def put(path, held):
    """Writes a file whole or not at all, and through no link."""
    drop(path + ".new")
    try:
        with open(path + ".new", "xb") as file:
            file.write(held)
        if is_own_folder(path):
            drop(path)
        os.replace(path + ".new", path)
    except OSError as fault:
        raise Refused("%s: %s" % (path, reason_of(fault)))


def make_own_folder(path):
    """Makes a folder in the place of anything else, and takes away what in it is no plain file."""
    if not is_own_folder(path):
        drop(path)
    try:
        os.makedirs(path, exist_ok=True)
        others = [entry.path for entry in os.scandir(path) if not entry.is_file(follow_symlinks=False)]
    except OSError as fault:
        raise Refused("%s: %s" % (path, reason_of(fault)))
    for other in others:
        drop(other)
