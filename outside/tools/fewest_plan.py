"""A plan with as few vehicles as do: the fleets in a folder within that of the plan, and what is said of them."""
import os
import shutil

from tools.apart import apart_of
from tools.day import FEWEST
from tools.fleets import Fleets, with_fleet
from tools.loads import as_there
from tools.places import as_called
from tools.respelling import certificate
from tools.standing import CERTIFICATE, INSTANCE, PLAN, Folder
from tools.units import units_of


def narrowed(folder, instance, given, signals, until):
    """What is known of the fleets of an instance, and notes, after work in the folder within; one of another instance
    goes."""
    path = folder.at(FEWEST)
    if os.path.isdir(path):
        with Folder(path) as within:
            is_other = within.held(INSTANCE) != with_fleet(instance, instance.fleet)[0]
        if is_other:
            shutil.rmtree(path, ignore_errors=True)
    with Folder(path) as within:
        fleets = Fleets(within, instance, given, signals, until)
        fleets.narrow()
        return fleets.found, fleets.notes()


def take_fewest(planner, fleet):
    """Brings the plan and the certificate of a fleet into the place of a plan of that fleet, where they are better."""
    texts = []
    for name in (PLAN, CERTIFICATE):
        path = planner.folder.at(os.path.join(FEWEST, "%d.%s" % (fleet, name.partition(".")[0])))
        if os.path.exists(path):
            with open(path, "rb") as file:
                texts.append(file.read())
        else:
            texts.append(certificate(planner.instance).encode())
    planner.take_texts(*texts)


def between(low, high):
    """The numbers of vehicles from one up to another, of which it isn't known whether they do, with their verb."""
    return "%d do%s" % (low, "es" if low == 1 else "") if high - low == 1 else "%d to %d do" % (low, high - 1)


def fewest_told(found, folder, names):
    """What is known of how few vehicles do, in a sentence: that fewer don't, and what shows it."""
    low, high, instance = found.low, found.high, found.instance
    fewer, units, apart, whose = low - 1, units_of(names), apart_of(instance, names), ""
    if high is None:
        return ""
    if low == 1:
        return "No plan does without a vehicle." if high == 1 else "Whether %s isn't known." % between(low, high)
    if found.known.get(fewer, (None,))[0] == "NO PLAN":
        why = as_called("./vrptw check") + " %s %s shows it" % tuple(
            os.path.join(folder, "%d.%s" % (fewer, ending)) for ending in ("instance", "certificate"))
        whose = " of %s" % apart.called if apart else ""
    else:
        there = as_there(instance, names)
        whole = sum(row[2] for row in there.rows)
        why = "the demands are %s, and so many hold %s" % (units.load(whole), units.room(there.capacity, fewer))
        if units.whole(whole) <= fewer * units.whole(there.capacity):
            whose, why = " of the rounded loads", why + ", but not once loads are rounded"
    vehicles = "%d vehicle%s" % (fewer, "" if fewer == 1 else "s")
    if low == high:
        return "Fewer vehicles don't do: with %s there is no plan%s (%s)." % (vehicles, whose, why)
    return "With %s there is no plan%s (%s), and whether %s isn't known." % (vehicles, whose, why, between(low, high))
