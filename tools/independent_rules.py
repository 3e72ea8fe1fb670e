"""A second reading of documents 01 and 02, for the calls on lent tables. It shares nothing with the crates, nor with
tools/independent, which lists a stored drawing.

What an edit has seen is a set of names here, its past, and what the papers say of vectors is said of that: a vector
counts the past and the edit itself. Versions are sought by what stands against a Set: a maximal set has it, or one
that conflicts with it. Tables need not be true, so that Sets may have more versions than a row has room for.
"""
import struct
from functools import lru_cache, total_ordering
from math import inf

RECORDS, OBJECTS, SETS, VERSIONS, SITES = 256, 64, 64, 32, 16
TRAILER, LIMIT, WRAP = struct.Struct("<HBBI"), 65536, 1 << 32
CREATE, SET, LIMITED, TOP, BOTTOM = range(1, 6)
LAYERS, AIMED = (TOP, BOTTOM), (SET, LIMITED, TOP, BOTTOM)
# kind, site, sequence number; vector; target site, key, target sequence number, value
FIELDS = struct.Struct("<BBH32sBBHI")
# behind those a limited Set has the count of its members and two zero bytes, then for each site, zero and sequence
LISTED, MEMBER, MEMBERS = struct.Struct("<HH"), struct.Struct("<BBH"), 16
RECORD = FIELDS.size
# the longest record, for which a place of the table has room
PLACE = RECORD + LISTED.size + MEMBERS * MEMBER.size
# an old block and its records: the fourth byte of the trailer, sites, what is missing of a vector, bytes, kinds
OLD, LONG = 0, 1
OLD_SITES, MISSING, OLD_RECORD, OLD_KINDS = 8, slice(20, 36), 28, (CREATE, SET)


class Refused(Exception):
    def __init__(self, number, index=0):
        super().__init__(number)
        self.number, self.index = number, index


def length(data):
    """How long the record at the front of these bytes is; what stands past their end counts as 0."""
    if data[:1] != bytes((LIMITED,)):
        return RECORD
    count, _ = LISTED.unpack_from(data[RECORD:].ljust(LISTED.size, b"\0"))
    return RECORD + LISTED.size + count * MEMBER.size


@total_ordering
class Edit:
    """A record of its own length. Edits go by the total order: by how many edits their authors had applied, then by
    site."""

    def __init__(self, record):
        self.record = record
        self.kind, self.site, self.seq, vector, site, self.key, seq, self.value = FIELDS.unpack_from(record)
        self.vector, self.name, self.target = struct.unpack("<16H", vector), (self.site, self.seq), (site, seq)
        self.members = list(MEMBER.iter_unpack(record[RECORD + LISTED.size:])) if self.kind == LIMITED else []

    def __eq__(self, other):
        return self.record == other.record

    def __hash__(self):
        return hash(self.record)

    def __lt__(self, other):
        return (sum(self.vector), self.site) < (sum(other.vector), other.site)

    def sets(self):
        return self.kind in (SET, LIMITED)

    def seen(self):
        """The names of all that its author had applied before it, one by one."""
        for site, count in enumerate(self.vector):
            yield from ((site, seq) for seq in range(1, count + 1 - (site == self.site)))

    def shown(self):
        return self.value & ~7 if self.key < 2 else self.value

    def words(self):
        return sum(struct.unpack("<%dI" % (len(self.record) // 4), self.record))


@lru_cache(maxsize=4096)
def past(edit):
    """What an edit has seen, where that is held."""
    return frozenset(edit.seen())


def is_unfit(record, n):
    """Answer 1."""
    if len(record) != length(record):
        return True
    e = Edit(record)
    if e.kind not in (CREATE, *AIMED) or e.site >= n or any(e.vector[n:]) or e.key > 15:
        return True
    if e.seq == 0 or e.vector[e.site] != e.seq or e.kind != CREATE and e.target[1] == 0:
        return True
    if e.kind == LIMITED:
        return is_list_unfit(e)
    return e.kind in LAYERS and (e.key, e.value) != (0, 0) or e.kind == CREATE and record[-8:] != bytes(8)


def is_list_unfit(e):
    names = [(site, seq) for site, _, seq in e.members]
    _, zeros = LISTED.unpack_from(e.record, RECORD)
    return len(names) > MEMBERS or zeros or any(zero for _, zero, _ in e.members) or names != sorted(set(names))


def disputes(a, b):
    """Document 01's conflict, of two Sets of one box."""
    return (a.key == b.key and a.shown() != b.shown() and a.name != b.name and a.name not in past(b)
            and b.name not in past(a))


@lru_cache(maxsize=20000)
def disputed_in(sets):
    """Of each of these Sets those that it disputes."""
    return {a: frozenset(b for b in sets if disputes(a, b)) for a in sets}


def maximal_within(foes, among, most, known):
    """The sets of these that have no two foes and cannot be enlarged; where they are more than so many, enough of them
    that this shows. What is found of fewer ones is kept in `known`."""
    free = frozenset(e for e in among if not foes[e] & among)
    rest = among - free
    if rest not in known:
        known[rest] = set() if rest else {frozenset()}
        # one with few foes, so that there are few ways to go on: it is in, or one of its foes is
        first = min(rest, key=lambda e: len(foes[e] & rest), default=None)
        for e in foes[first] & rest | {first} if rest else ():
            if len(known[rest]) <= most:
                known[rest] |= {others | {e} for others in maximal_within(foes, rest - foes[e] - {e}, most, known)}
    return {free | others for others in known[rest]}


@lru_cache(maxsize=20000)
def maximal_sets(sets):
    """The versions of a box with these Sets, each as the set of its Sets; where they are more than a row has room for,
    enough of them that this shows."""
    return maximal_within(foes_in(sets), frozenset(sets), VERSIONS, {})


def foes_in(sets):
    """Of each of these Sets of a box, in an order in which they may arrive, those that conflict with it: something in
    the reach of one disputes something in the reach of the other."""
    disputed, reach = disputed_in(sets), {e: contexts(sets)[e] | {e} for e in sets}
    against = {a: frozenset().union(*(disputed[x] for x in reach[a])) for a in sets}
    return {a: frozenset(b for b in sets if against[a] & reach[b]) for a in sets}


@lru_cache(maxsize=20000)
def contexts(sets):
    """Of each of these Sets its context, as a set of Sets; None where a limited Set names no version."""
    if not sets:
        return {}
    *before, last = sets
    return {**contexts(tuple(before)), last: context(tuple(before), last)}


def context(before, e):
    """The version that e names, where these Sets of its box came before it: those that it lists and nothing else that
    is disputed among the Sets that it has seen, as large as it can be."""
    if e.kind != LIMITED:
        return frozenset()
    seen = tuple(a for a in before if a.name in past(e))
    disputed, foes = disputed_in(seen), foes_in(seen)
    listed = frozenset(a for a in seen if disputed[a] and any(a.name == (s, seq) for s, _, seq in e.members))
    if len(listed) < len(e.members) or any(foes[a] & listed for a in listed):
        return None
    beside = frozenset(a for a in seen if not disputed[a] and not foes[a] & listed)
    for others in maximal_within(foes, beside, inf, {}):
        if all(a in listed | others or foes[a] & (listed | others) for a in seen):
            return listed | others
    return None


class Drawing:
    """Edits held, in the order of their arrival, each of which passes 1 to 5 and 16 after those before it."""

    def __init__(self, n, edits=()):
        self.n, self.edits, self.held = n, tuple(edits), {e.name: e for e in edits}

    def count(self, site):
        return sum(e.site == site for e in self.edits)

    def creates(self):
        return [e for e in self.edits if e.kind == CREATE]

    def sets(self, box):
        return tuple(e for e in self.edits if e.sets() and e.target == box)

    def sum(self):
        return sum(e.words() for e in self.edits) % WRAP

    def misfit(self, record):
        """1 to 5 and 16 in turn, the first that applies; else 0."""
        if is_unfit(record, self.n):
            return 1
        e = Edit(record)
        if e.name in self.held:
            return 2
        if any(name not in self.held for name in e.seen()):
            return 3
        if any(not past(a) <= past(e) for a in self.edits if a.name in past(e)):
            return 4
        if e.kind in AIMED and (e.target not in past(e) or self.held[e.target].kind != CREATE):
            return 5
        return 16 if e.kind == LIMITED and context(self.sets(e.target), e) is None else 0

    def is_full(self, e):
        return (len(self.edits) == RECORDS or e.kind == CREATE and len(self.creates()) == OBJECTS
                or e.sets() and len(self.sets(e.target)) == SETS)

    def answer(self, record):
        """1 to 5, 16, 6 and 7 in turn, the first that applies; else 0."""
        misfit = self.misfit(record)
        if misfit:
            return misfit
        e = Edit(record)
        if self.is_full(e):
            return 6
        return 7 if e.sets() and len(maximal_sets(self.sets(e.target) + (e,))) > VERSIONS else 0

    def ordered(self):
        """The Creates of the boxes as they stand in the list: by their last to-top, and before these by themselves."""
        last = {e.target: e for e in sorted(self.edits) if e.kind == TOP}
        return sorted(self.creates(), key=lambda c: (c.name in last, last.get(c.name, c)))

    def box_lines(self, create, groups):
        """A line for each group, by identifier and then by number; bit i of a group stands for the box's i-th Set."""
        sets, lines = self.sets(create.name), []
        disputed = disputed_in(sets)
        for group in groups:
            members = sorted(e for i, e in enumerate(sets) if group >> i & 1)
            called = sorted(e.name for e in members if disputed[e])
            shown = {e.key: e.shown() for e in members}
            text = ["%d.%d" % create.name, "+".join("%d.%d" % one for one in called) or "-"]
            lines.append((called, group, text + ["%d=%d" % (key, shown[key]) for key in sorted(shown)]))
        return [" ".join(text) for _, _, text in sorted(lines)]


def stretch(data, first, number, form):
    """So many records of a file from this place on, in turn, as they are stored; None for one that reaches into the
    trailer."""
    end = len(data) - TRAILER.size
    for _ in range(number):
        size = OLD_RECORD if form == OLD else length(data[first:end]) if first < end else RECORD
        yield data[first:first + size] if first + size <= end else None
        first += size


def locate(data):
    """N, the form, the number of records and where the first one starts; Refused with the number."""
    if not TRAILER.size <= len(data) <= LIMIT:
        raise Refused(10)
    number, n, form, distance = TRAILER.unpack(data[-TRAILER.size:])
    first = len(data) - TRAILER.size - distance
    if number > RECORDS or form > LONG or first < 0:
        raise Refused(10)
    stored = list(stretch(data, first, number, form))
    if None in stored or sum(map(len, stored)) != distance:
        raise Refused(10)
    if n < 1 or n > (OLD_SITES if form == OLD else SITES):
        raise Refused(9)
    return n, form, number, first


def lengthened(record):
    """A stored old record as a long one; no record where its kind has no old form."""
    at = MISSING.start
    return record[:at] + bytes(MISSING.stop - at) + record[at:] if record[0] in OLD_KINDS else b""


def records_of(data):
    """The records of a file, as they arrive."""
    _, form, number, first = locate(data)
    return tuple(lengthened(r) if form == OLD else r for r in stretch(data, first, number, form))
