"""What others may do to the folder of a step of a batch: other texts, with the sums by which earlier versions believed
what stood beside them, other instances, odd files, links, and traps for whoever writes there."""
import hashlib
import os
import re
import shutil

from cases.mutating import changed

# The texts of a step, and where earlier versions kept what the check said of them.
INSTANCE, PLAN, CERTIFICATE, DONE, CHECKED = "instance.txt", "plan.txt", "certificate.txt", "done.txt", "checked.txt"
TEXTS = (INSTANCE, PLAN, CERTIFICATE, "errors.txt", DONE)
# Lines that say that a step is done, or nearly so.
DONE_LINES = [b"1 5 far\n", b"0 999999999999 far 999999999999\n", b"1 7 far 9\n", b"0 0 \x1b[31m 0\n",
              b"0 5 \xff\n", b"", b"0\n", b"0 5 far", b"2 5 far\n", b"999 5 far 3\n", b"1 -5 far\n", b"0 5 far \n",
              b"1 5 =1+1 4\n", b"1 5 far\n\n", b"1 5 " + 255 * b"m" + b"\n", b"1 5 " + 256 * b"m" + b"\n", b"1" * 5000]
SAID = [b"", b"vrptw: memory\n", b"\x1b[2J\x07gone\n", b"\xff\xfe\n", b"a  b\r\n", 5000 * b"long "]
# Links into a folder that a run here would write through.
TRAPS = ("plan.part", "certificate.part", "plans.part", "line.part", "errors.part", "done.part", "instance.txt.new",
         "checked.txt.new", "plan.round")
LARGE = 1 << 36


def demand_plain(path):
    """What isn't a small file any more is left as it is."""
    if os.path.lexists(path) and (os.path.islink(path) or not os.path.isfile(path) or os.path.getsize(path) >= LARGE):
        raise OSError


def got(path):
    demand_plain(path)
    with open(path, "rb") as file:
        return file.read()


def put(path, text):
    demand_plain(path)
    with open(path, "wb") as file:
        file.write(text)


def summed(random, own, line=None):
    """Puts sums of the texts and a verdict where earlier versions believed them."""
    texts = [got(os.path.join(own, name)) for name in (INSTANCE, CERTIFICATE, PLAN)]
    cost, bound = (re.search(word + rb" ([0-9.]+)", text) for word, text in ((b"Cost", texts[2]), (b"BOUND", texts[1])))
    told = [found[1].decode() if found else "1.0" for found in (cost, bound)]
    line = line or random.choice(["BEST " + told[0], "GAP %s %s" % tuple(told), "NO PLAN", "BOUND " + told[1], "", "x"])
    sums = " ".join(hashlib.sha256(text).hexdigest() for text in texts)
    put(os.path.join(own, CHECKED), ("%s\n%s\n" % (sums, line)).encode())


def renumbered(own, name, word, number):
    """Writes another number behind a word of a text."""
    text = got(os.path.join(own, name))
    put(os.path.join(own, name), re.sub(word + rb" [0-9.]+\n", word + b" %d.%d\n" % divmod(number, 10), text))


def lowered(random, own, case):
    """One number for both cost and bound."""
    number = random.choice([0, 1, random.randrange(9999)])
    renumbered(own, PLAN, b"Cost", number)
    renumbered(own, CERTIFICATE, b"BOUND", number)
    summed(random, own, "BEST %d.%d" % divmod(number, 10))


def raised(random, own, case):
    """Another bound, or one that no plan reaches."""
    renumbered(own, CERTIFICATE, b"BOUND", random.choice([1, 10 ** 4, 10 ** 7, random.randrange(10 ** 5)]))
    if random.randrange(2):
        put(os.path.join(own, PLAN), b"")
    summed(random, own, random.choice([None, "NO PLAN"]))


def rerouted(random, own, case):
    """A plan with a route fewer, one customer fewer, or two of them exchanged, at the same cost or less."""
    lines = got(os.path.join(own, PLAN)).split(b"\n")
    at = random.randrange(len(lines))
    words = lines[at].split(b" ")
    kind = random.randrange(3)
    if kind == 0:
        del lines[at]
    elif kind == 1:
        lines[at] = b" ".join(words[:-1])
    else:
        lines[at] = b" ".join(words[:2] + words[:1:-1])
    put(os.path.join(own, PLAN), b"\n".join(lines))
    summed(random, own)


def spoilt(random, own, case):
    """A text with some bytes changed."""
    path = os.path.join(own, random.choice(TEXTS))
    put(path, changed(random, got(path)))
    summed(random, own)


def swapped(random, own, case):
    """Texts of another instance, right for that one; perhaps with that instance."""
    for name in (PLAN, CERTIFICATE, INSTANCE)[:random.randint(2, 3)]:
        put(os.path.join(own, name), case.other[name])
    summed(random, own)


def ended(random, own, case):
    """Another end of the step, and another fault."""
    put(os.path.join(own, DONE), random.choice(DONE_LINES))
    put(os.path.join(own, "errors.txt"), random.choice(SAID))


def odd(random, own, case):
    """Something else in the place of a file."""
    path, kind = os.path.join(own, random.choice(TEXTS + (CHECKED,))), random.randrange(6)
    if os.path.lexists(path):
        os.remove(path)
    if kind == 0:
        os.mkdir(path)
    elif kind == 1:
        os.mkfifo(path)
    elif kind == 2:
        os.symlink("/dev/zero", path)
    elif kind == 3:
        with open(path, "xb") as file:
            file.truncate(LARGE)
    elif kind == 4:
        os.symlink(os.path.join(case.outside, "kept"), path)


def linked(random, own, case):
    """The folder, or a text, somewhere else."""
    path = random.choice([own, os.path.join(own, random.choice(TEXTS))])
    place = os.path.join(case.outside, "moved_%d" % len(os.listdir(case.outside)))
    shutil.move(path, place)
    os.symlink(place, path)


def gone(random, own, case):
    """The folder away, or a file in its place."""
    shutil.rmtree(own)
    if random.randrange(2):
        put(own, b"x")


def trapped(random, own, case):
    """Links where somebody may write."""
    for name in random.sample(TRAPS, 3):
        if not os.path.lexists(os.path.join(own, name)):
            os.symlink(os.path.join(case.outside, "kept"), os.path.join(own, name))
    if random.randrange(2):
        os.remove(os.path.join(own, DONE))


FORGED = {"cost and bound": lowered, "bound": raised, "routes": rerouted, "bytes": spoilt, "instance": swapped,
          "end": ended, "odd file": odd, "link": linked, "gone": gone, "traps": trapped}
# What may hold a place in a batch's folder beside the steps: names that no step has.
BESIDE = ["\x1b[31mred", "a b", ".hid", "q@", "q@other", "-q", "@few", "\u00e9"]


def forge(random, own, case, way=None):
    """Changes the folder of a step in one way, where it is still one; answers which."""
    way = way or random.choice(sorted(FORGED))
    try:
        FORGED[way](random, own, case)
    except (OSError, ValueError):
        # What was changed before stands in the way.
        return "twice"
    return way
