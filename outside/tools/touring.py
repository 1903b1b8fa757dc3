"""Tours of customers of whom not all are served: where a customer fits, by times of a tour that are known already."""


class Tables:
    """The numbers of an instance by customer, as lists."""

    def __init__(self, instance):
        self.arc, self.capacity, self.fleet = instance.arc, instance.capacity, instance.fleet
        self.demand, self.ready, self.due, self.service = ([row[column] for row in instance.rows]
                                                           for column in (2, 3, 4, 5))
        self.empty = Tour(self, [])


class Tour:
    """A tour with its load; `ends` has when the depot is left and each service ends, at the earliest, and `latest` when
    each service has to begin, and the way home to end."""
    __slots__ = ("stops", "load", "ends", "latest", "cost")

    def __init__(self, tables, stops):
        arc, self.stops = tables.arc, stops
        self.load = sum(tables.demand[i] for i in stops)
        at, end, self.cost, self.ends = 0, tables.ready[0], 0, [tables.ready[0]]
        for i in stops:
            end = max(end + arc[at][i], tables.ready[i]) + tables.service[i]
            self.cost += arc[at][i]
            self.ends.append(end)
            at = i
        self.cost += arc[at][0]
        self.latest = latest_of(tables, stops)

    def holds(self, tables):
        """Whether the vehicle holds it all and is in time."""
        return self.load <= tables.capacity and all(
            end - tables.service[i] <= latest for i, end, latest in zip(self.stops, self.ends[1:], self.latest)) and (
            self.ends[-1] + tables.arc[self.stops[-1] if self.stops else 0][0] <= tables.due[0])


def latest_of(tables, stops):
    """When each service of a tour has to begin at the latest, and last the end of the day."""
    by, after, found = tables.due[0], 0, [tables.due[0]]
    for i in reversed(stops):
        by = min(tables.due[i], by - tables.arc[i][after] - tables.service[i])
        found.append(by)
        after = i
    found.reverse()
    return found


def place_in(tables, tour, i):
    """Where a customer fits into a tour with the least way around: that way and the place; None where nowhere."""
    if tour.load + tables.demand[i] > tables.capacity:
        return None
    arc, ready, due, service = tables.arc, tables.ready[i], tables.due[i], tables.service[i]
    own, best, before = arc[i], None, 0
    for place, (end, by, after) in enumerate(zip(tour.ends, tour.latest, tour.stops + [0])):
        if end > due:
            break
        way = arc[before][i]
        begin = end + way if end + way > ready else ready
        if begin <= due and begin + service + own[after] <= by:
            more = way + own[after] - arc[before][after]
            if best is None or more < best[0]:
                best = more, place
        before = after
    return best


def with_one(tables, tour, i, place):
    """The tour with a customer more."""
    return Tour(tables, tour.stops[:place] + [i] + tour.stops[place:])


def without(tables, tour, gone):
    """The tour without some customers."""
    return Tour(tables, [i for i in tour.stops if i not in gone])


def put(tables, tours, i, skips=None, is_alone_last=False):
    """Puts a customer where the way around is least, or into a vehicle that is left, which may come last; answers
    whether it fits. The function `skips` answers for which tours that isn't tried."""
    found = [(place, k) for k, tour in enumerate(tours) if not (skips and skips())
             for place in [place_in(tables, tour, i)] if place]
    if len(tours) < tables.fleet and not (found and is_alone_last):
        place = place_in(tables, tables.empty, i)
        found += [(place, len(tours))] if place else []
    if not found:
        return False
    (_, place), k = min(found)
    if k == len(tours):
        tours.append(Tour(tables, [i]))
    else:
        tours[k] = with_one(tables, tours[k], i, place)
    return True
