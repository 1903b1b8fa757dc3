"""Places by latitude and longitude, laid out flat about the depot, in minutes of driving."""
from fractions import Fraction
from math import asin, cos, pi, radians, sin, sqrt
from statistics import median

from tools.layouts import MOST_COORDINATE
from tools.noting import ROUNDED, Note
from tools.tool import Cell, quoted
from tools.units import at_most

# Kilometres of a degree on the globe, and of its radius.
RADIUS = 6371.0088
DEGREE = RADIUS * pi / 180
LIMITS = {"lat": 90, "lon": 180}
# Places are laid out to so many parts of a minute, before the scale rounds them.
FINE = 10 ** 6
# How much farther than most a place is that looks swapped, and by how many kilometres at least.
FAR, LEAST_FAR = 10, 50
SWAPPED = "; lat and lon look swapped"
# Where people live, in boxes of least and greatest latitude and longitude; and western Europe, whose places lie in East
# Africa, Arabia or the sea between where both are exchanged.
INHABITED = ((7, 72, -170, -52), (-56, 13, -82, -34), (34, 72, -25, 180), (-36, 38, -26, 63), (5, 54, 60, 146),
             (-48, 20, 92, 180))
EUROPE = ((35, 71, -11, 20),)


def on_globe(first, second):
    """The kilometres between two places, each a latitude and a longitude."""
    (lat, lon), (to_lat, to_lon) = (tuple(map(radians, place)) for place in (first, second))
    half = sin((to_lat - lat) / 2) ** 2 + cos(lat) * cos(to_lat) * sin((to_lon - lon) / 2) ** 2
    return 2 * RADIUS * asin(min(1.0, sqrt(half)))


def flat(places):
    """Each place as kilometres east and north of the first one: equirectangular, with its latitude."""
    (lat, lon), shrunk = places[0], cos(radians(places[0][0]))
    return [((((own - lon + 180) % 360) - 180) * DEGREE * shrunk, (north - lat) * DEGREE) for north, own in places]


def worst(places, laid):
    """The greatest distance between two places in kilometres, and by how much one laid out differs at most."""
    longest = most = 0.0
    for i, first in enumerate(places):
        for j in range(i):
            real = on_globe(first, places[j])
            longest = max(longest, real)
            most = max(most, abs(real - sqrt((laid[i][0] - laid[j][0]) ** 2 + (laid[i][1] - laid[j][1]) ** 2)))
    return longest, most


def middle(places):
    """A place in the midst of most, which few wrong ones don't move."""
    return tuple(median(column) for column in zip(*places))


def looks_swapped(places):
    """Of each place whether it is far from most, and would be among them with latitude and longitude exchanged."""
    centre = middle(places)
    ways = [on_globe(centre, place) for place in places]
    most = max(FAR * median(ways), LEAST_FAR)
    return [way > most and abs(place[1]) <= LIMITS["lat"] and on_globe(centre, place[::-1]) < way / FAR
            for way, place in zip(ways, places)]


def is_in(place, boxes):
    return any(south <= place[0] <= north and west <= place[1] <= east for south, north, west, east in boxes)


def all_swapped(places):
    """What speaks for it that latitude and longitude are exchanged in all rows, in words, or nothing."""
    here = middle(places)
    there = here[::-1]
    if not is_in(here, INHABITED) and is_in(there, INHABITED):
        return "nobody lives where the places lie"
    if is_in(there, EUROPE) and not is_in(here, EUROPE):
        return "exchanged they lie in western Europe, and else in East Africa, Arabia or the sea there"
    return ""


def judge_degrees(values):
    """Keeps what is no latitude or longitude as a fault; answers the places, None where one has a fault."""
    places = [tuple(None if row[column].value is None else float(row[column].value) for column in LIMITS)
              for _, row in values.rows]
    right = [place for place in places if is_place(place)]
    for (line, row), place in zip(values.rows, places):
        told = SWAPPED if is_place(place[::-1]) and is_among(place[::-1], right) else ""
        for column, limit in LIMITS.items():
            if row[column].value is not None and abs(row[column].value) > limit:
                values.faults.add(line, column, quoted(row[column]), "%s of -%d to %d%s" % (
                    column, limit, limit, told))
    return places if len(right) == len(places) else None


def is_place(place):
    """Whether both numbers are there and within their limits."""
    return None not in place and all(abs(own) <= limit for own, limit in zip(place, LIMITS.values()))


def is_among(place, others):
    """Whether a place is near the middle of others, as far as there are some."""
    if not others:
        return True
    centre = middle(others)
    return on_globe(centre, place) <= max(LEAST_FAR, FAR * median(on_globe(centre, other) for other in others))


def judge_extent(values, places, laid, minutes):
    """Keeps places that are too far from most to be held as faults, with what they look like."""
    if all(max(column) - min(column) <= MOST_COORDINATE / minutes for column in zip(*laid)):
        return
    centre = middle(places)
    ways, swapped = [on_globe(centre, place) for place in places], looks_swapped(places)
    farthest = max(ways)
    for (line, row), way, is_swapped in zip(values.rows, ways, swapped):
        if is_swapped or not any(swapped) and way > farthest / 2:
            values.faults.add(line, None, "lat %s and lon %s, %.0f km from the others" % (
                quoted(row["lat"]), quoted(row["lon"]), way), "places at most %.0f km apart%s" % (
                    MOST_COORDINATE / minutes, SWAPPED if is_swapped else ""))


def laid_out(values, quantities):
    """Puts x and y in minutes of driving into the rows; answers what is noted."""
    places = judge_degrees(values)
    if quantities.speed is None:
        values.faults.refuse()
        values.text.refuse(values.table.line, "degrees without a speed", "--speed N, in km/h")
    quantities.is_projected = True
    if places is None:
        return []
    laid, minutes = flat(places), 60 * quantities.detour / quantities.speed
    judge_extent(values, places, laid, float(minutes))
    least = [min(place[axis] for place in laid) for axis in (0, 1)]
    for (_, row), place in zip(values.rows, laid):
        for axis, name in enumerate("xy"):
            value = Fraction(round((place[axis] - least[axis]) * float(minutes) * FINE), FINE)
            row[name] = Cell("%.2f" % float(value), value)
    longest, most = worst(places, laid)
    return [Note("places are laid out flat about the depot, the farthest two of them %.1f km apart: that is at most %s "
                 "km off, and roads are taken as %s times as long, driven at %s km/h" % (
                     longest, at_most(most), "%g" % float(quantities.detour), "%g" % float(quantities.speed)), ROUNDED)]
