"""The edits of a picture: the shape and the text of each, and how the picture is coloured."""
import textwrap

import svg
from drawing_text import KINDS, listed, rules, written
from stored import CREATE, LIMITED

# the pixels around the text of an edit, the corner cut off one in dispute, and the bar of a limited one
INSET, CUT, BAR = 8, 7, 5
# the lowest edit: two lines of text
LOWEST = 2 * svg.LINE + 2 * INSET
# how many signs a line of names in an edit has, unless one name is longer
FOLD = 24
# blue and vermilion are told apart by those who see no red or no green; what is in dispute is dashed as well
BLUE, VERMILLION, GREY, DARK = "#0072B2", "#D55E00", "#7b868f", "#1d2429"
STYLE = """
text { fill: %(DARK)s; }
.title { font-size: 16px; font-weight: bold; }
.name { font-weight: bold; }
.lane { fill: #f3f5f7; }
polyline { fill: none; stroke-linecap: square; }
.axis { stroke: #c9d0d6; stroke-width: 3; stroke-linecap: butt; }
.seen { stroke: %(GREY)s; stroke-width: 1.5; }
.seen-dot { fill: %(GREY)s; }
.dispute { stroke: %(VERMILLION)s; stroke-width: 2; stroke-dasharray: 5 4; stroke-linecap: butt; }
.dispute-dot { fill: %(VERMILLION)s; }
.create { fill: #dbe4ea; stroke: %(DARK)s; stroke-width: 1.5; }
.set { fill: #ffffff; stroke: %(BLUE)s; stroke-width: 2; }
.layer { fill: #ffffff; stroke: %(GREY)s; stroke-width: 1.5; }
.disputed { fill: #fff1e6; stroke: %(VERMILLION)s; stroke-width: 2.5; stroke-dasharray: 7 3; }
.bar { fill: %(BLUE)s; }
.disputed-bar { fill: %(VERMILLION)s; }
.one { stroke: %(BLUE)s; stroke-width: 4; stroke-linecap: butt; }
.several { stroke: %(VERMILLION)s; stroke-width: 4; stroke-dasharray: 7 3; stroke-linecap: butt; }
""" % {"BLUE": BLUE, "VERMILLION": VERMILLION, "GREY": GREY, "DARK": DARK}


def folded(said):
    """A text of several words, in as many lines as it needs."""
    return textwrap.wrap(said, FOLD, break_long_words=False, break_on_hyphens=False)


def frame(kind, is_disputed, place, size):
    """The outline of an edit: a Create has round corners, one in dispute has them cut off, a limited Set has a bar."""
    (x, y), (wide, high) = place, size
    if is_disputed:
        right, low = x + wide, y + high
        yield svg.shape([(x + CUT, y), (right - CUT, y), (right, y + CUT), (right, low - CUT), (right - CUT, low),
                         (x + CUT, low), (x, low - CUT), (x, y + CUT)], "disputed")
    else:
        called = "create" if kind == CREATE else "set" if kind in rules.SETTING else "layer"
        yield svg.element("rect", x=x, y=y, width=wide, height=high, rx=10 if kind == CREATE else None, class_=called)
    if kind == LIMITED:
        yield svg.element("rect", x=x + CUT, y=y, width=wide - 2 * CUT, height=BAR,
                          class_="disputed-bar" if is_disputed else "bar")


class Shown:
    """An edit as it is drawn: its lane and its column, its text, and the names of those that it is in dispute with."""

    def __init__(self, e, lane, column, against):
        self.e, self.lane, self.column, self.against = e, lane, column, against
        self.name = written(rules.name(e))
        word = next(word for word, kind in KINDS.items() if kind == e.kind)
        self.lines = [word if e.kind == CREATE else "%s %s" % (word, written(e.target))]
        if e.kind == LIMITED:
            version = folded("version " + listed(e.members).replace("+", "+ "))
            self.lines += [line.replace("+ ", "+") for line in version]
        if e.kind in rules.SETTING:
            self.lines.append("%d=%d" % (e.key, e.value))
        if against:
            self.lines += folded("against " + " ".join(map(written, sorted(against))))

    def size(self):
        widest = max(svg.width(line) for line in [self.name + " " + self.lines[0]] + self.lines[1:])
        return widest + 2 * INSET, max(LOWEST, len(self.lines) * svg.LINE + 2 * INSET)

    def parts(self, x, y):
        yield from frame(self.e.kind, bool(self.against), (x, y), self.size())
        yield svg.text(x + INSET, y + INSET, self.name, "name")
        yield svg.text(x + INSET + svg.width(self.name + " "), y + INSET, self.lines[0])
        for i, said in enumerate(self.lines[1:], 1):
            yield svg.text(x + INSET, y + INSET + i * svg.LINE, said)
