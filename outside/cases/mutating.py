"""Right texts, and the same with some bytes changed."""
import functools
import random as randomness
import re
import sys

from cases.random_texts import certificate_of, instance_words, laid_out, plan_of, solution_of, tree_of
from reference import bounding, checking
from reference.instances import plan_cost, read
from reference.texts import read_certificate, shown

# Numbers of any length are read; older versions of Python do so always.
if hasattr(sys, "set_int_max_str_digits"):
    sys.set_int_max_str_digits(0)

SPECIAL = [b"\0", b"\r", b"\r\n", b"\n", b"\n\n", b"\t", b" ", b"-", b"+", b".", b"\x7f", b"\x80", b"\xff", b"\xc3\xa9",
           b"\xef\xbb\xbf", b"\xe2\x80\xa8", b"\x1b[0m", b"\x0b", b"\x0c", b"\x1a", b"\xc2\xa0"]
NUMBERS = [b"0", b"1", b"00", b"-0", b"-1", b"+1", b"9", b"10", b"400", b"401", b"999", b"1000", b"1001", b"9999",
           b"10000", b"10001", b"65535", b"65536", b"999999", b"1000000", b"1000001", b"999999999", b"1000000000",
           b"4294967295", b"4294967296", b"999999999999", b"1000000000000", b"1000000000001", b"-1000000000001",
           b"9223372036854775807", b"9223372036854775808", b"18446744073709551615", b"18446744073709551616",
           b"340282366920938463463374607431768211456", b"1e3", b"0x10", b"1_000", b"1,5", b"NaN", b"inf"]


def lined_up(words):
    """The words in the usual lines."""
    head = [words[:1], words[1:2], words[2:4], words[4:6], words[6:7], words[7:18]]
    rows = [words[at:at + 7] for at in range(18, len(words), 7)]
    return "".join(" ".join(line) + "\n" for line in head + rows).encode()


@functools.lru_cache(None)
def base(number):
    """An instance of one to three customers, a certificate that it accepts, and a solution that may have a defect."""
    random = randomness.Random("base %d" % number)
    while True:
        words = instance_words(random, random.randint(1, 3))
        text = lined_up(words) if random.randrange(2) else laid_out(random, words)
        instance = read(text)
        lines = certificate_of(random, instance, tree_of(random, instance))
        if lines[3] not in ("NEIGHBOURS 8", "NEIGHBOURS 15"):
            continue
        try:
            found = read_certificate(joined(lines))
            lines[4] = "BOUND " + shown(checking.tree_bound(instance, found, bounding.least_by_routes))
        except bounding.TooLong:
            continue
        routes = plan_of(random, instance)
        cost = plan_cost(instance, [[i for i in route if i <= instance.count] for route in routes])
        return text, joined(lines), joined(solution_of(routes, cost))


def joined(lines):
    return "".join(line + "\n" for line in lines).encode()


def any_bytes(random):
    """Some bytes to put somewhere."""
    kind = random.randrange(8)
    if kind < 4:
        return bytes([random.randrange(256)])
    if kind < 7:
        return random.choice(SPECIAL)
    return bytes(random.randrange(256) for _ in range(random.randint(2, 9)))


def changed_bytes(random, text):
    """A byte or a range replaced, put in, taken out or copied to another place; or the end."""
    at = random.randrange(len(text) + 1)
    to = min(len(text), at + random.choice([1, 1, 1, 2, 5, 30]))
    kind = random.randrange(7)
    if kind == 0:
        return text[:at] + any_bytes(random) + text[at:]
    if kind == 1:
        return text[:at] + any_bytes(random) + text[to:]
    if kind == 2:
        return text[:at] + text[to:]
    if kind == 3:
        return text[:at]
    if kind == 4:
        return text + any_bytes(random)
    if kind == 5 and at < len(text):
        return text[:at] + bytes([text[at] ^ 1 << random.randrange(8)]) + text[at + 1:]
    other = random.randrange(len(text) + 1)
    return text[:other] + text[at:to] + text[other:]


def changed_lines(random, text):
    """A line twice, away, in another place or ended in another way."""
    lines = text.split(b"\n")
    at, other = random.randrange(len(lines)), random.randrange(len(lines))
    kind = random.randrange(6)
    if kind == 0:
        lines.insert(other, lines[at])
    elif kind == 1:
        del lines[at]
    elif kind == 2:
        lines[at], lines[other] = lines[other], lines[at]
    elif kind == 3:
        lines[at] += random.choice([b"\r", b" ", b"\t", b"\0"])
    elif kind == 4:
        return text.replace(b"\n", random.choice([b"\r\n", b"\r", b"\n\n"]))
    else:
        lines[at:at + 2] = [b" ".join(lines[at:at + 2])]
    return b"\n".join(lines)


def changed_number(random, text):
    """A number by another one: near it, at a limit, or very long."""
    found = list(re.finditer(rb"-?[0-9]+", text))
    if not found:
        return text
    here = random.choice(found)
    kind = random.randrange(5)
    if kind == 0:
        other = b"%d" % (int(here.group()) + random.choice([-1, 1, 10, -10]))
    elif kind == 1:
        other = random.choice([b"0", b"00", b"-", b"+"]) + here.group()
    elif kind == 2 and random.randrange(20) == 0:
        other = random.choice([b"1", b"0"]) * random.choice([32, 33, 100, 5000, 70000])
    elif kind == 3:
        other = b"%d" % random.randrange(10 ** random.randint(1, 20))
    else:
        other = random.choice(NUMBERS)
    return text[:here.start()] + other + text[here.end():]


def long_line(random, text):
    """Many of the same byte in one place."""
    at = random.randrange(len(text) + 1)
    return text[:at] + random.choice([b" ", b"\n", b"0", b"x", b"\r", b"1 ", b"\0"]) * random.choice(
        [30, 33, 1000, 20000]) + text[at:]


def changed(random, text):
    """The text with one to three changes."""
    for _ in range(random.choice([1, 1, 1, 2, 3])):
        kind = random.randrange(20)
        change = (changed_bytes if kind < 9 else changed_number if kind < 15 else changed_lines if kind < 19
                  else long_line)
        text = change(random, text)
    return text
