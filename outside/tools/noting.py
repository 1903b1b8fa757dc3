"""What is noted of a file, in the order in which it matters."""

# What changes the plan; what is doubtful; what is passed over; what is rounded.
PLAN, DOUBT, OVER, ROUNDED = range(4)


class Note(str):
    """A note that knows how much it matters; another string changes the plan."""

    def __new__(cls, told, group=PLAN):
        found = super().__new__(cls, told)
        found.group = group
        return found


def grouped(notes):
    """The notes by what they are about, and those on roundings in one line."""
    groups = {group: [note for note in notes if getattr(note, "group", PLAN) == group]
              for group in (PLAN, DOUBT, OVER, ROUNDED)}
    last = ["; ".join(groups[ROUNDED])] if groups[ROUNDED] else []
    return groups[PLAN] + groups[DOUBT] + groups[OVER] + last
