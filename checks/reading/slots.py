"""What slots hold."""

from .code import Fault

SMALLEST, GREATEST = -2**31, 2**31 - 1
MOST_ITEMS = 1024


class Slot:
    """What a slot, a var or a list may hold, and how it starts."""

    def __init__(self, kind, least=None, greatest=None, null=False, most=None, columns=None):
        self.kind, self.least, self.greatest, self.null = kind, least, greatest, null
        # How many items a list has at most, nothing where it is one value; of a grid how many columns.
        self.most, self.columns = most, columns
        self.start = None
        # How many items it begins with, and how many for each seat of the match.
        self.begin, self.each = 0, 0

    def fits(self, value):
        if value is None:
            return self.null
        if isinstance(value, str):
            return self.kind == "text"
        return self.kind == "number" and self.least <= value <= self.greatest

    def begun(self, seats, start):
        """What it starts as, in a match of so many seats."""
        return start if self.most is None else [start] * (self.begin + self.each * seats)

    def bounds(self):
        return (self.least, self.greatest)

    def bytes(self):
        """How many bytes its text has at most."""
        value = 130 if self.kind == "text" else max(len(str(self.least)), len(str(self.greatest)))
        value = max(value, 4) if self.null else value
        return value if self.most is None else 1 + (value + 1) * self.most


class Types:
    """Reads types, with the constants of a description and its greatest number of seats."""

    def __init__(self, constants, seats):
        self.constants, self.seats = constants, seats

    def number(self, end):
        value = end[1]
        if end[0] == "constant":
            value = self.constants.get(end[1])
            if not isinstance(value, int):
                raise Fault("unknown-name", end[1])
            value = -value if end[2] else value
        if not SMALLEST <= value <= GREATEST:
            raise Fault("out-of-range")
        return value

    def range(self, tree):
        """A kind, and the least and the greatest number."""
        if tree[0] == "text":
            return "text", None, None
        if tree[0] == "seat":
            return "number", 0, self.seats - 1
        least, greatest = self.number(tree[1]), self.number(tree[2]) - (not tree[3])
        if greatest < least:
            raise Fault("empty-range")
        return "number", least, greatest

    def literal(self, tree):
        return None if tree[0] == "null" else tree[1] if tree[0] == "text" else self.number(tree)

    def slot(self, tree):
        of, null, length, start = tree
        slot = Slot(*self.range(of), null)
        if length:
            self.set_length(slot, *length)
        if start is not None:
            slot.start = self.literal(start)
            if not slot.fits(slot.start):
                raise Fault("start-outside-range")
        elif not null:
            slot.start = "" if slot.kind == "text" else min(max(0, slot.least), slot.greatest)
        return slot

    def set_length(self, slot, form, *counts):
        counts = [None if count is None else self.number(count) for count in counts]
        if any(count is not None and not 1 <= count <= MOST_ITEMS for count in counts):
            raise Fault("bad-length")
        if form == "seats":
            slot.columns, slot.each = counts[0], counts[0] or 1
            slot.most = self.seats * slot.each
        elif form == "most":
            slot.most = counts[0] or self.seats
        else:
            slot.columns = counts[1] if form == "grid" else None
            slot.begin = slot.most = counts[0] * (slot.columns or 1)
        if slot.most > MOST_ITEMS:
            raise Fault("bad-length")
