"""Where the lines of a picture go, so that none runs through an edit or along another line.

Edits stand in lanes and columns, one at most where a lane and a column meet. Upright pieces of lines go between the
columns, in channels, and level pieces between the lanes, in bands; each has a track of its own there. An edit has one
upright piece for all lines that lead away from it, in the channel at its right, and one for all that come to it from
afar, in the channel at its left. So two lines join only where they leave one edit or come to one.
"""
from collections import defaultdict

# the kinds of lines, and the heights at which an edit has its ends: where lines come in from the left, go out to the
# right, and come in from the right, which only those from an edit in the same column do
SEEN, DISPUTE = "seen", "dispute"
IN, OUT, BESIDE = "in", "out", "beside"
PORTS = {(SEEN, IN): 9, (DISPUTE, IN): 16, (SEEN, OUT): 30, (DISPUTE, OUT): 37, (DISPUTE, BESIDE): 44}
# the distance between tracks, and what is free at the ends of a channel and of a band
STEP, CHANNEL_ENDS, BAND_ENDS = 9, (12, 20), (12, 12)


class Upright:
    """An upright piece: its channel, and the points at which others join it. A point is an end of an edit in a lane,
    or a level piece."""

    def __init__(self, kind, channel):
        self.kind, self.channel, self.points, self.track = kind, channel, [], 0

    def reach(self):
        """From where to where it goes, counted in lanes and in the bands between them."""
        levels = [point.level() for point in self.points]
        return min(levels), max(levels)


class Level:
    """A level piece: the band below this lane, and the two upright pieces that it joins."""

    def __init__(self, kind, band, left, right):
        self.kind, self.band, self.uprights, self.track = kind, band, (left, right), 0

    def level(self):
        return 2 * self.band + 1

    def reach(self):
        channels = [one.channel for one in self.uprights]
        return min(channels), max(channels)


class End:
    """An end of an edit: the short level piece on its left or right, and the upright pieces that this joins."""

    def __init__(self, kind, edit, side):
        self.kind, self.edit, self.side, self.uprights = kind, edit, side, []

    def level(self):
        return 2 * self.edit.lane


class Routes:
    """The pieces of all lines between edits that have a lane and a column each."""

    def __init__(self):
        self.ends, self.joints, self.levels = {}, {}, []

    def end(self, kind, edit, side):
        return self.ends.setdefault((kind, id(edit), side), End(kind, edit, side))

    def upright(self, kind, edit, side):
        """The edit's own upright piece at this side."""
        key = (kind, id(edit), side)
        if key not in self.joints:
            self.joints[key] = Upright(kind, edit.column + (side == OUT))
            self.join(self.joints[key], self.end(kind, edit, side))
        return self.joints[key]

    @staticmethod
    def join(upright, end):
        upright.points.append(end)
        end.uprights.append(upright)

    def connect(self, kind, a, b):
        """A line from an edit to one in another lane, which stands in no earlier column."""
        trunk = self.upright(kind, a, OUT)
        if b.column <= a.column + 1:
            self.join(trunk, self.end(kind, b, IN if b.column > a.column else BESIDE))
            return
        piece = Level(kind, b.lane - 1 if a.lane < b.lane else b.lane, trunk, self.upright(kind, b, IN))
        for one in piece.uprights:
            one.points.append(piece)
        self.levels.append(piece)

    def pack(self):
        """Gives each piece a track; how many there are in each channel, and in each band."""
        return (packed(self.joints.values(), lambda one: one.channel), packed(self.levels, lambda one: one.band))


def packed(pieces, place):
    """Tracks such that pieces in one place and track have nothing in common; how many each place has."""
    there = defaultdict(list)
    for piece in sorted(pieces, key=lambda one: one.reach()):
        lasts, (start, last) = there[place(piece)], piece.reach()
        free = next((i for i, before in enumerate(lasts) if before < start), len(lasts))
        lasts[free:free + 1] = [last]
        piece.track = free
    return {where: len(lasts) for where, lasts in there.items()}


def room(tracks, ends):
    """The pixels of a channel or a band with so many tracks."""
    return sum(ends) + STEP * max(0, tracks - 1)


def drawn(routes, x, y, left, right):
    """The lines as points, each with its kind, and the dots where three pieces join. x and y give the place of a
    channel's and a band's first track, left and right the side of an edit, and its height where y is asked for it."""
    lines, sides = [], defaultdict(set)

    def at(upright):
        return x(upright.channel) + STEP * upright.track

    def height(point):
        if isinstance(point, Level):
            return y(point) + STEP * point.track
        return y(point) + PORTS[point.kind, point.side]

    def piece(kind, points, before, after):
        """A straight piece through these points: its inner points go on in both directions."""
        points = sorted(points)
        lines.append((kind, [points[0], points[-1]]))
        for i, point in enumerate(points):
            sides[kind, point].update([before] * (i > 0) + [after] * (i < len(points) - 1))

    for one in routes.joints.values():
        piece(one.kind, {(at(one), height(point)) for point in one.points}, "up", "down")
    for one in routes.levels:
        piece(one.kind, {(at(upright), height(one)) for upright in one.uprights}, "left", "right")
    for one in routes.ends.values():
        side = (left if one.side == IN else right)(one.edit)
        piece(one.kind, {(side, height(one))} | {(at(upright), height(one)) for upright in one.uprights},
              "left", "right")
    return lines, [key for key, directions in sides.items() if len(directions) > 2]
