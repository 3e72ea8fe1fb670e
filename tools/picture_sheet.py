"""A stored drawing as a picture: a lane for each laptop with its edits, what each had seen, what is in dispute, and the
versions as the list has them. What is in dispute, and the lines of the list, are what tools/independent says."""
import svg
from drawing_text import rules, written
from picture_edits import LOWEST, STYLE, Shown, frame
from picture_routes import BAND_ENDS, CHANNEL_ENDS, DISPUTE, IN, PORTS, SEEN, Level, Routes, drawn, room
from seeing import needed
from stored import CREATE, LIMITED, SET, SITES, TOP

# the pixels around all, the room of the lanes' names, and what is free between two parts of the sheet
MARGIN, NAMES, GAP = 20, 84, 14
# the line of a lane below its upper side; an arrow's length and half its width; a dot's radius; a sample of the legend
AXIS, ARROW, HALF, DOT, SAMPLE = 23, 9, 4, 3, (34, 16)
# the height of a line in a sample, and how wide a row of samples may be
LEVEL, ROW = SAMPLE[1] // 2, 760
# an edit that is in dispute with more others than these has no lines to them, which would be a thicket: it names them
FEW = 4


def arrow(x, y):
    """The head of an arrow that ends there."""
    return svg.shape([(x, y), (x - ARROW, y - HALF), (x - ARROW, y + HALF)], "seen-dot")


def sample_line(kind, x, y):
    return svg.line([(x, y + LEVEL), (x + SAMPLE[0], y + LEVEL)], kind)


class Plan:
    """The edits of a drawing, or of one of its boxes, in lanes and columns, and the pairs between which lines go. An
    edit stands in a later column than all that it had seen."""

    def __init__(self, drawing, box):
        edits = [e for e in drawing.edits if box in (None, rules.name(e), e.target)]
        self.lanes = list(range(drawing.n)) if box is None else sorted({e.site for e in edits})
        self.shown, self.seen, vectors, last = {}, [], {}, {}
        for e in edits:
            before = [last[e.site]] if e.site in last else []
            had = [self.shown[one] for one in needed(vectors, e, before[0].e.vector if before else (0,) * SITES)]
            column = 1 + max((one.column for one in had + before), default=-1)
            against = drawing.boxes[e.target].disputes[rules.name(e)] if e.kind in rules.SETTING else ()
            vectors[rules.name(e)] = e.vector
            self.shown[rules.name(e)] = last[e.site] = one = Shown(e, self.lanes.index(e.site), column, against)
            self.seen += [(other, one) for other in had]
        ordered = sorted(self.shown.values(), key=lambda one: (one.column, one.lane))
        few = [one for one in ordered if len(one.against) <= FEW]
        self.disputes = [(one, other) for i, one in enumerate(few) for other in few[i + 1:]
                         if rules.name(other.e) in one.against]

    def routes(self):
        """The lines, which lead to the right or stay in their column."""
        routes = Routes()
        for kind, pairs in ((SEEN, self.seen), (DISPUTE, self.disputes)):
            for one, other in pairs:
                routes.connect(kind, one, other)
        return routes


class Grid:
    """Where the columns and lanes of a plan are, with the channels and bands between them, in pixels."""

    def __init__(self, plan, top):
        self.plan, self.routes = plan, plan.routes()
        channels, bands = self.routes.pack()
        edits = list(plan.shown.values())
        columns = 1 + max((one.column for one in edits), default=-1)
        wide, high = [0] * columns, [LOWEST] * len(plan.lanes)
        for one in edits:
            wide[one.column] = max(wide[one.column], one.size()[0])
            high[one.lane] = max(high[one.lane], one.size()[1])
        self.high, self.columns, self.channels, self.lanes, self.bands = high, [], [], [], []
        self.right, self.low = MARGIN + NAMES, top
        for i in range(columns + 1):
            self.channels.append(self.right + CHANNEL_ENDS[0])
            self.columns.append(self.right + room(channels.get(i, 0), CHANNEL_ENDS))
            self.right = self.columns[-1] + (wide[i] if i < columns else 0)
        for i, height in enumerate(high):
            self.lanes.append(self.low)
            self.bands.append(self.low + height + BAND_ENDS[0])
            self.low += height + room(bands.get(i, 0), BAND_ENDS)

    def left_of(self, one):
        return self.columns[one.column]

    def right_of(self, one):
        return self.columns[one.column] + one.size()[0]

    def height_of(self, point):
        return self.bands[point.band] if isinstance(point, Level) else self.lanes[point.edit.lane]

    def parts(self):
        """The lanes, the lines over them, and the edits over these."""
        for site, y, high in zip(self.plan.lanes, self.lanes, self.high):
            yield svg.element("rect", x=MARGIN, y=y - 6, width=self.right - MARGIN, height=high + 12, class_="lane")
            yield svg.line([(MARGIN + NAMES, y + AXIS), (self.right, y + AXIS)], "axis")
            yield svg.text(MARGIN + 6, y + AXIS - svg.LINE // 2, "laptop %d" % site, "name")
        lines, dots = drawn(self.routes, self.channels.__getitem__, self.height_of, self.left_of, self.right_of)
        for kind, points in lines:
            yield svg.line(points, kind)
        for kind, (x, y) in dots:
            yield svg.element("circle", cx=x, cy=y, r=DOT, class_=kind + "-dot")
        for end in self.routes.ends.values():
            if (end.kind, end.side) == (SEEN, IN):
                yield arrow(self.left_of(end.edit), self.lanes[end.edit.lane] + PORTS[SEEN, IN])
        for one in self.plan.shown.values():
            yield from one.parts(self.left_of(one), self.lanes[one.lane])


def samples(plan):
    """What the legend explains: what there is in this plan, and how it is shown."""
    edits = list(plan.shown.values())
    for said, kind, there in (
            ("a Create", CREATE, [one for one in edits if one.e.kind == CREATE]),
            ("a Set", SET, [one for one in edits if one.e.kind == SET and not one.against]),
            ("a Set limited to a version", LIMITED, [one for one in edits if one.e.kind == LIMITED]),
            ("a layer edit", TOP, [one for one in edits if one.e.kind in rules.LAYERS])):
        if there:
            yield said, lambda x, y, kind=kind: frame(kind, False, (x, y), SAMPLE)
    most = max((len(one.against) for one in edits), default=0)
    if most:
        said = "a Set in dispute" + (", with more than %d others without lines" % FEW if most > FEW else "")
        yield said, lambda x, y: frame(SET, True, (x, y), SAMPLE)
    if plan.seen:
        yield "seen by the edit at the arrow", lambda x, y: [sample_line(SEEN, x, y), arrow(x + SAMPLE[0], y + LEVEL)]
    if plan.disputes:
        yield "in dispute with each other", lambda x, y: [sample_line(DISPUTE, x, y)]


def legend(plan, top):
    """The samples in rows; the parts, how wide they are and where they end."""
    parts, x, widest = [], MARGIN, 0
    for said, sample in samples(plan):
        wide = SAMPLE[0] + GAP + svg.width(said)
        if x > MARGIN and x + wide > ROW:
            x, top = MARGIN, top + SAMPLE[1] + GAP
        parts += [*sample(x, top), svg.text(x + SAMPLE[0] + 8, top - 1, said)]
        x += wide + 2 * GAP
        widest = max(widest, x)
    return parts, widest, top + SAMPLE[1] + GAP


def versions(boxes, top):
    """The lines of the list, with a bar at the left of each box; the parts, how wide they are and where they end."""
    said = "Versions, from the bottom box to the top:" if len(boxes) > 1 else "Versions:"
    parts, widest, top = [svg.text(MARGIN, top, said)], MARGIN + svg.width(said), top + svg.LINE + 6
    for lines in boxes:
        low = top + svg.LINE * len(lines)
        parts.append(svg.line([(MARGIN + 3, top + 2), (MARGIN + 3, low)], "one" if len(lines) == 1 else "several"))
        parts += [svg.text(MARGIN + 14, top + svg.LINE * i, line) for i, line in enumerate(lines)]
        top, widest = low + 6, max([widest] + [MARGIN + 14 + svg.width(line) for line in lines])
    return parts, widest, top


def picture_of(data, title, box=None):
    """The picture of the drawing that a file stores, or of one of its boxes; Refused with the number, and KeyError
    where there is no such box."""
    drawing = rules.read(data)
    if box is not None and box not in drawing.boxes:
        raise KeyError(box)
    plan, title = Plan(drawing, box), title if box is None else "%s, box %s" % (title, written(box))
    boxes = [list(rules.box_lines(create, drawing.boxes[rules.name(create)])) for create in drawing.ordered()
             if box in (None, rules.name(create))]
    head = drawing.lines()[0]
    parts = [svg.text(MARGIN, MARGIN, title, "title"), svg.text(MARGIN, MARGIN + 26, head)]
    explained, widest, low = legend(plan, MARGIN + 54)
    grid = Grid(plan, low + GAP)
    listed, wide, low = versions(boxes, grid.low + GAP)
    size = (max(grid.right, widest, wide, MARGIN + svg.TITLE * len(title), MARGIN + svg.width(head)) + MARGIN,
            low + MARGIN)
    return svg.document(size, STYLE, title, [*parts, *explained, *grid.parts(), *listed])
