"""Elements of an SVG picture, as text. Text has one width a sign, so that what it takes is known before it is drawn."""
import re
from xml.sax.saxutils import escape, quoteattr

# a sign and a line of the text, in pixels: a little more than the widest of these fonts needs
FONT, SIZE, SIGN, LINE = "'DejaVu Sans Mono', Menlo, Consolas, 'Liberation Mono', monospace", 13, 8, 18
# a sign of a title, which is 16 pixels high
TITLE = 10
# where the signs stand in their line
RISE = 13
# signs that no XML file may have
UNFIT = re.compile("[^\t\n\r\x20-\ud7ff\ue000-\ufffd\U00010000-\U0010ffff]")


def clean(text):
    return UNFIT.sub("\ufffd", text)


def element(name, inner=None, **attributes):
    """An element; `class_` and names with _ are written as SVG has them."""
    given = "".join(" %s=%s" % (key.rstrip("_").replace("_", "-"), quoteattr(clean(str(value))))
                    for key, value in attributes.items() if value is not None)
    return "<%s%s/>" % (name, given) if inner is None else "<%s%s>%s</%s>" % (name, given, inner, name)


def text(x, y, said, class_=None):
    """A line of text whose upper left corner is there."""
    return element("text", escape(clean(said)), x=x, y=y + RISE, class_=class_)


def line(points, class_):
    """A line through these points."""
    return element("polyline", points=" ".join("%d,%d" % p for p in points), class_=class_)


def shape(points, class_):
    return element("polygon", points=" ".join("%d,%d" % p for p in points), class_=class_)


def width(said):
    return SIGN * len(said)


def document(size, style, title, parts):
    """The whole picture, as wide and high as it is: a viewer scrolls, and does not shrink it."""
    wide, high = size
    inner = [element("title", escape(clean(title))), element("style", escape(style)),
             element("rect", width=wide, height=high, fill="#ffffff"), *parts]
    return '<?xml version="1.0" encoding="UTF-8"?>\n' + element(
        "svg", "\n" + "\n".join(inner) + "\n", xmlns="http://www.w3.org/2000/svg", width=wide, height=high,
        viewBox="0 0 %d %d" % (wide, high), font_family=FONT, font_size=SIZE) + "\n"
