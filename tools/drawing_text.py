"""A stored drawing as text, one edit a line, and such text as a stored block: the words that tools/drawing explains.

A record is said in the shortest words that are read as its very bytes, and in raw bytes where no words are. So the text
of a block is read as the same block, whatever stands in it. What the rules say of an edit plays no part here.
"""
import re

from comparing import module
from seeing import joined, needed
from stored import (BOTTOM, CREATE, LIMITED, LONG, OLD, OLD_RECORD, OLD_SITES, SET, SITES, TOP, closed, limited, long,
                    old, record, span)

rules = module("independent")
KINDS = {"create": CREATE, "set": SET, "limited": LIMITED, "to-top": TOP, "to-bottom": BOTTOM}
FORMS = {"old": OLD, "long": LONG}
# the largest numbers of the fields
SITE, SEQ, KEY, VALUE = 0xFF, 0xFFFF, 0xFF, 0xFFFFFFFF
# how many bytes of what stands ahead of the block are on a line
ROW = 48
# how much of a wrong word is shown
SHOWN = 40
NUMBER = re.compile(r"0|[1-9][0-9]*")
HEAD = "sites, their number and the form, as in: sites 3 long"


class BadText(Exception):
    """A line that is no line of a drawing: its number from 1, and what is wrong with it."""

    def __init__(self, line, message):
        super().__init__("line %d: %s" % (line, message))
        self.line, self.message = line, message


class Words:
    """The words of a line, taken one by one; a comment is none of them."""

    def __init__(self, text, line=0):
        self.left, self.line = text.split("#")[0].split(), line

    def bad(self, expected, found=None):
        return BadText(self.line, "expected %s, but %s" % (
            expected, "the line ends" if found is None else "found '%s'" % found[:SHOWN]))

    def take(self, expected):
        if not self.left:
            raise self.bad(expected)
        return self.left.pop(0)

    def end(self, expected="the end of the line"):
        if self.left:
            raise self.bad(expected, self.left[0])

    def number(self, word, most, expected):
        if not NUMBER.fullmatch(word) or int(word) > most:
            raise self.bad("%s, 0 to %d" % (expected, most), word)
        return int(word)

    def name(self, expected, word=None):
        """A site and a sequence number, from this word or from the next one."""
        word = self.take(expected) if word is None else word
        site, dot, seq = word.partition(".")
        if not dot:
            raise self.bad(expected, word)
        return (self.number(site, SITE, "a site in %s" % word),
                self.number(seq, SEQ, "a sequence number in %s" % word))

    def members(self):
        expected = "the members of a version, as in 1.1+2.3, or -"
        word = self.take(expected)
        return [] if word == "-" else [self.name(expected, one) for one in word.split("+")]

    def setting(self):
        """A key and its value."""
        expected = "a key and its value, as in 2=40"
        word = self.take(expected)
        key, equals, value = word.partition("=")
        if not equals:
            raise self.bad(expected, word)
        return (self.number(key, KEY, "a key in %s" % word), self.number(value, VALUE, "a value in %s" % word))

    def bytes(self):
        expected = "bytes, two hexadecimal digits each"
        word = self.take(expected)
        if not re.fullmatch(r"([0-9A-Fa-f]{2})+", word):
            raise self.bad(expected, word)
        self.end()
        return bytes.fromhex(word)


def written(name):
    return "%d.%d" % name


def listed(members):
    return "+".join(map(written, members)) or "-"


class Lines:
    """The edits of a drawing so far, of which each may be named by the lines below it."""

    def __init__(self, sites, form):
        self.sites, self.form = sites, form
        # the counts that a record of this form has, and the vector of each edit above, by its name
        self.entries, self.above = OLD_SITES if form == OLD else SITES, {}

    def decoded(self, data):
        return rules.decode(long(data) if self.form == OLD else data)

    def put(self, data):
        """Takes a record as the next line: a later one of the same name stands for both."""
        e = self.decoded(data)
        self.above[rules.name(e)] = e.vector

    def usual(self, name, others):
        """The vector where a line says nothing of it; KeyError with the name that is not above."""
        site, seq = name
        before = [(site, seq - 1)] if seq > 1 else []
        vector = joined(self.above[one] for one in before + list(others))
        return vector[:site] + (seq,) + vector[site + 1:]

    def vector(self, words, name, others):
        """The vector by the rest of a line, of an edit of this name that names these others."""
        if words.left[:1] == ["seen"]:
            return self.counts(words)
        if words.left:
            others = others + self.after(words)
        if name[0] >= self.entries or name[1] == 0:
            raise BadText(words.line, "expected 'seen' and counts, since none counts up to %s" % written(name))
        try:
            return self.usual(name, others)
        except KeyError as missing:
            raise BadText(words.line, "expected 'seen' and counts, since no line above is %s" % written(
                missing.args[0])) from None

    def after(self, words):
        """The names behind the word 'after', one at least."""
        word, names = words.take("'after'"), []
        if word != "after":
            raise words.bad("'after' and names, 'seen' and counts, or the end of the line", word)
        while words.left or not names:
            names.append(words.name("the name of an edit above, as in 1.1"))
        return names

    def counts(self, words):
        words.take("'seen'")
        counts = [words.number(word, SEQ, "a count") for word in words.left]
        if not self.sites <= len(counts) <= self.entries:
            raise words.bad("%d counts, one for each site, or up to %d" % (self.sites, self.entries),
                            "%d counts" % len(counts))
        return tuple(counts)

    def read(self, words):
        """The record that a line says."""
        if words.left[0] == "raw":
            return self.raw(words)
        name = words.name("the name of an edit, as in 1.1, or 'raw'")
        word = words.take("what the edit is: " + ", ".join(KINDS))
        if word not in KINDS:
            raise words.bad("what the edit is: " + ", ".join(KINDS), word)
        kind, target, key, value, members = KINDS[word], (0, 0), 0, 0, []
        if kind == LIMITED and self.form == OLD:
            raise words.bad("another kind in an old block, where none is limited", word)
        if kind != CREATE:
            target = words.name("the name of a box, as in 0.1")
        if kind == LIMITED:
            members = words.members()
        if kind in rules.SETTING:
            key, value = words.setting()
        vector = self.vector(words, name, [] if kind == CREATE else [target] + members)
        return self.stored(kind, name, vector, target, key, value, members)

    def stored(self, kind, name, vector, target, key, value, members):
        if kind == LIMITED:
            return limited(name[0], vector, target, key, value, members, seq=name[1])
        data = record(kind, name[0], vector, target, key, value, name[1])
        return old(data) if self.form == OLD else data

    def raw(self, words):
        words.take("'raw'")
        data = words.bytes()
        size = OLD_RECORD if self.form == OLD else span(data)
        if len(data) != size:
            raise words.bad("%d bytes of a record" % size, "%d bytes" % len(data))
        return data

    def sayings(self, data):
        """Ways to say a record, the shortest first: the last one can say any."""
        e = self.decoded(data)
        kind = next((word for word, kind in KINDS.items() if kind == e.kind), None)
        if kind:
            said = "%s %s" % (written(rules.name(e)), kind)
            said += " " + written(e.target) if e.kind != CREATE else ""
            said += " " + listed(e.members) if e.kind == LIMITED else ""
            said += " %d=%d" % (e.key, e.value) if e.kind in rules.SETTING else ""
            yield said
            yield "%s after %s" % (said, " ".join(map(written, self.unsaid(e))))
            past = max((i + 1 for i, count in enumerate(e.vector) if count), default=0)
            yield "%s seen %s" % (said, " ".join(map(str, e.vector[:max(self.sites, past)])))
        yield "raw " + data.hex()

    def unsaid(self, e):
        """The edits above that e had seen and that it is not taken to have seen."""
        try:
            usual = self.usual(rules.name(e), [] if e.kind == CREATE else [e.target, *e.members])
        except KeyError:
            return []
        return needed(self.above, e, usual)

    def said(self, data):
        """A record in the shortest words that are read as its bytes."""
        for text in self.sayings(data):
            try:
                if self.read(Words(text)) == data:
                    return text
            except BadText:
                pass
        raise AssertionError("raw bytes are always read")


def records(data, form, number, first):
    """The records of a located block as they are stored, in turn."""
    for end in rules.ends(data, form, number, first):
        yield data[first:end]
        first = end


def text_of(data):
    """The text of the drawing that a file stores; Refused where no block is located in it."""
    sites, form, number, first = rules.locate(data)
    out = ["sites %d %s" % (sites, next(word for word in FORMS if FORMS[word] == form))]
    out += ["front " + data[at:min(at + ROW, first)].hex() for at in range(0, first, ROW)]
    lines = Lines(sites, form)
    for one in records(data, form, number, first):
        out.append(lines.said(one))
        lines.put(one)
    return "".join(line + "\n" for line in out)


def head(words):
    """N and the form, by the first line."""
    word = words.take(HEAD)
    if word != "sites":
        raise words.bad(HEAD, word)
    sites, form = words.take(HEAD), words.take(HEAD)
    if form not in FORMS:
        raise words.bad("the form, long or old", form)
    most = OLD_SITES if form == "old" else SITES
    if not NUMBER.fullmatch(sites) or not 1 <= int(sites) <= most:
        raise words.bad("1 to %d sites" % most, sites)
    words.end()
    return int(sites), FORMS[form]


def parts(told, lines):
    """What the lines say in turn, each with its number: whether it is a record, and the bytes."""
    edits = False
    for words in told:
        if words.left[0] != "front":
            edits = True
            data = lines.read(words)
            lines.put(data)
        elif edits:
            raise words.bad("an edit, since bytes in front of the block are said ahead of all edits", "front")
        else:
            words.take("'front'")
            data = words.bytes()
        yield words.line, edits, data


def block_of(text):
    """The file that a text says; BadText for the first line that says none."""
    every = [Words(line, i) for i, line in enumerate(text.split("\n"), 1)]
    told = [words for words in every if words.left]
    if not told:
        raise every[-1].bad(HEAD)
    lines, front, stored, size = Lines(*head(told[0])), [], [], rules.TRAILER
    for line, is_record, data in parts(told[1:], lines):
        (stored if is_record else front).append(data)
        size += len(data)
        if len(stored) > rules.RECORDS or size > rules.LIMIT:
            raise BadText(line, "expected at most %d edits, and %d bytes in all" % (rules.RECORDS, rules.LIMIT))
    return b"".join(front) + closed(lines.sites, stored, lines.form)
