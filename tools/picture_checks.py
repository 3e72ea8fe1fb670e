"""Whether a picture is clean and true: nothing in it overlaps or is cut off, and it says of each two edits whether one
had seen the other and whether they are in dispute."""
import xml.etree.ElementTree as tree
from itertools import combinations

import svg
from drawing_text import rules
from picture_sheet import FEW, Plan

FRAMES, LINES = ("create", "set", "layer", "disputed"), ("seen", "dispute")


def points(one):
    return [tuple(map(int, point.split(","))) for point in one.get("points").split()]


def extent(one):
    """Left, upper, right and lower side of an element; none for what takes no room."""
    kind, at = one.tag.rpartition("}")[2], lambda *names: [int(one.get(name)) for name in names]
    if kind == "rect":
        x, y, wide, high = (int(one.get(name, 0)) for name in ("x", "y", "width", "height"))
        return x, y, x + wide, y + high
    if kind == "circle":
        x, y, r = at("cx", "cy", "r")
        return x - r, y - r, x + r, y + r
    if kind == "text":
        x, y = at("x", "y")
        sign = svg.TITLE if one.get("class") == "title" else svg.SIGN
        return x, y - svg.RISE, x + sign * len(one.text), y - svg.RISE + svg.LINE
    if kind in ("polyline", "polygon"):
        xs, ys = zip(*points(one))
        return min(xs), min(ys), max(xs), max(ys)
    return None


def meet(a, b):
    """Two extents have more than a side in common; of a line, which has no width, also what lies within."""
    return (max(a[0], b[0]) < min(a[2], b[2]) or a[0] == a[2] and b[0] < a[0] < b[2]) and (
        max(a[1], b[1]) < min(a[3], b[3]) or a[1] == a[3] and b[1] < a[1] < b[3])


def along(a, b):
    """Two straight lines run along each other."""
    if a[0] == a[2] == b[0] == b[2]:
        return max(a[1], b[1]) < min(a[3], b[3])
    return a[1] == a[3] == b[1] == b[3] and max(a[0], b[0]) < min(a[2], b[2])


def within(a, b):
    return b[0] <= a[0] and b[1] <= a[1] and a[2] <= b[2] and a[3] <= b[3]


def faults(picture):
    """What is not clean in a picture."""
    root = tree.fromstring(picture.encode())
    page = (0, 0, int(root.get("width")), int(root.get("height")))
    sized = [(one, extent(one)) for one in root if extent(one)]
    frames = [side for one, side in sized if one.get("class") in FRAMES]
    lines = [side for one, side in sized if one.get("class") in LINES]
    texts = [(one.text, side) for one, side in sized if one.tag.endswith("}text")]
    yield from ("cut off: %s" % (side,) for _, side in sized if not within(side, page))
    yield from ("edits overlap: %s %s" % pair for pair in combinations(frames, 2) if meet(*pair))
    yield from ("lines run along each other: %s %s" % pair for pair in combinations(lines, 2) if along(*pair))
    yield from ("a line runs through an edit: %s" % (line,) for line in lines for frame in frames if meet(line, frame))
    yield from ("a line runs through text: %s" % text for text, side in texts for line in lines if meet(line, side))
    yield from ("texts overlap: %s, %s" % (a[0], b[0]) for a, b in combinations(texts, 2) if meet(a[1], b[1]))
    yield from ("text leaves its edit: %s" % text for text, side in texts for frame in frames
                if meet(side, frame) and not within(side, frame))


def unseen(plan):
    """Pairs of edits of which the arrows say what is not so, or twice. Had seen is the order in a lane, the arrows, and
    all that follows from these."""
    reached, last, arrows = {}, {}, {}
    for one, other in plan.seen:
        arrows.setdefault(other, []).append(one)
    for one in plan.shown.values():
        ahead = arrows.get(one, [])
        had = ahead + ([last[one.lane]] if one.lane in last else [])
        further = set().union(*(reached[other.e] for other in had))
        yield from ("not needed: %s %s" % (other.name, one.name) for other in ahead if other.e in further)
        reached[one.e] = further | {other.e for other in had}
        last[one.lane] = one
    for a, b in combinations(reached, 2):
        if rules.before(a, b) != (a in reached[b]) or rules.before(b, a) != (b in reached[a]):
            yield "seen: %s %s" % (rules.name(a), rules.name(b))


def undisputed(plan):
    """Pairs of edits of which their names or the dashed lines say what is not so. Where there are few, both say it."""
    lines = {frozenset(pair) for pair in plan.disputes}
    for one, other in combinations(plan.shown.values(), 2):
        is_so, few = rules.conflict(one.e, other.e), max(len(one.against), len(other.against)) <= FEW
        named = {rules.name(other.e) in one.against, rules.name(one.e) in other.against}
        if named != {is_so} or (is_so and few) != (frozenset((one, other)) in lines):
            yield "dispute: %s %s" % (one.name, other.name)


def untrue(drawing, box):
    """What is not so in the picture of a drawing, or of one of its boxes."""
    plan = Plan(drawing, box)
    return [*unseen(plan), *undisputed(plan)]
