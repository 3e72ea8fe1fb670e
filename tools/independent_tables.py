"""An independent reading of documents 01 and 02 of the calls on lent tables: what each answers, and what it leaves.

It stands on the rules of independent_rules.py, and shares nothing with tools/independent nor with the crates. Tables
are what the caller lends, of any lengths and contents. On true tables the groups after an arrival are the enumerated
maximal sets, and the step of document 01 must give the same; on other sound tables they are what that step says.
"""
import struct
from collections import namedtuple
from functools import lru_cache

import independent_rules as rules

RECORD, PLACE, TRAILER, SITES = rules.RECORD, rules.PLACE, rules.TRAILER.size, rules.SITES
RECORDS, OBJECTS, SETS, VERSIONS = rules.RECORDS, rules.OBJECTS, rules.SETS, rules.VERSIONS
ENTRY = 3
# the most Sets of a box whose groups are enumerated
DECIDED = 20
# no list is longer: 2,049 lines of 874 bytes
LONGEST_LIST = 2049 * 874

# the counters N, records, objects, held (a count per site) and sum; then bytes, and two tuples of numbers
Tables = namedtuple("Tables", "sites records objects held sum places entries groups")
# the number given back, what else is given back, and the tables and the output after the call; None: as they were
Outcome = namedtuple("Outcome", "number sites form records value tables output", defaults=(0, 0, 0, 0, None, None))


def filled(values, length):
    return tuple(values) + (0,) * (length - len(values))


def has_lengths(t):
    return (len(t.places), len(t.entries), len(t.groups)) == (RECORDS * PLACE, OBJECTS * ENTRY, OBJECTS * VERSIONS)


def empty(n):
    return Tables(n, 0, 0, (0,) * SITES, 0, bytes(RECORDS * PLACE), filled((), OBJECTS * ENTRY),
                  filled((), OBJECTS * VERSIONS))


def placed(records):
    """The table of records that holds these, each at the front of its place."""
    return b"".join(r.ljust(PLACE, b"\0") for r in records).ljust(RECORDS * PLACE, b"\0")


@lru_cache(maxsize=64)
def records_at(places, number):
    """The records at the front of the first places, so many, each as long as it says, but no longer than its place."""
    held = [places[at:at + PLACE] for at in range(0, PLACE * number, PLACE)]
    return tuple(place[:rules.length(place)] for place in held)


def records_in(t):
    """The records in the used places."""
    return records_at(t.places, t.records)


def block_length(t):
    """The bytes of the block that these tables are written as."""
    return sum(map(len, records_in(t))) + TRAILER


@lru_cache(maxsize=20000)
def history(n, records):
    """The edits of these records, where each passes 1 to 5 and 16 after those before it; else None."""
    if not records:
        return ()
    before, last = history(n, records[:-1]), records[-1]
    if before is None or rules.Drawing(n, before).misfit(last):
        return None
    return before + (rules.Edit(last),)


@lru_cache(maxsize=20000)
def is_accepted(n, records):
    """Whether an empty drawing takes all these records in turn."""
    return not records or is_accepted(n, records[:-1]) and answer(n, records[:-1], records[-1]) == 0


@lru_cache(maxsize=20000)
def answer(n, before, record):
    """The answer to a record that arrives after these, which are accepted."""
    return rules.Drawing(n, history(n, before)).answer(record)


@lru_cache(maxsize=20000)
def maximal_groups(sets):
    """The groups of the definition, as ascending numbers: bit i of a group stands for the i-th Set."""
    return sorted(sum(1 << i for i, e in enumerate(sets) if e in group) for group in rules.maximal_sets(sets))


def built(n, records, edits, rows):
    """The tables that hold these records, with these groups for each object."""
    drawing = rules.Drawing(n, edits)
    places = [i for i, e in enumerate(edits) if e.kind == rules.CREATE]
    entries, groups = [], []
    for place, numbers in zip(places, rows):
        entries += [place, len(drawing.sets(edits[place].name)), len(numbers)]
        groups += filled(numbers, VERSIONS)
    held = tuple(drawing.count(s) for s in range(SITES))
    return Tables(n, len(edits), len(rows), held, drawing.sum(), placed(records), filled(entries, OBJECTS * ENTRY),
                  filled(groups, OBJECTS * VERSIONS))


@lru_cache(maxsize=2000)
def replayed(n, records):
    """The tables that these records give from an empty drawing; None where one of them is refused."""
    if not is_accepted(n, records):
        return None
    drawing = rules.Drawing(n, history(n, records))
    rows = [maximal_groups(drawing.sets(c.name)) for c in drawing.creates()]
    return built(n, records, history(n, records), rows)


def row(t, k):
    """The groups of object k: as many as its entry says."""
    return t.groups[VERSIONS * k:VERSIONS * k + t.entries[ENTRY * k + 2]]


def is_object_sound(t, k, place, sets):
    """Object k, whose Create is the record at this place and which has so many Sets among the records."""
    if t.entries[ENTRY * k:ENTRY * k + 2] != (place, sets) or sets > SETS:
        return False
    if not 1 <= t.entries[ENTRY * k + 2] <= VERSIONS:
        return False
    groups = row(t, k)
    unused = t.groups[VERSIONS * k + len(groups):VERSIONS * (k + 1)]
    return (all(a < b for a, b in zip(groups, groups[1:])) and all(g >> sets == 0 for g in groups)
            and not any(unused))


@lru_cache(maxsize=64)
def sound_edits(t):
    """The edits of sound tables; None where the tables are unsound, or not of the stated lengths."""
    if not has_lengths(t) or not 1 <= t.sites <= SITES or t.records > RECORDS or t.objects > OBJECTS:
        return None
    records = records_in(t)
    edits = history(t.sites, records)
    if edits is None or t.places != placed(records):
        return None
    drawing = rules.Drawing(t.sites, edits)
    creates = [i for i, e in enumerate(edits) if e.kind == rules.CREATE]
    if len(creates) != t.objects or t.held != tuple(drawing.count(s) for s in range(SITES)):
        return None
    if t.sum != drawing.sum():
        return None
    if any(t.entries[ENTRY * t.objects:]) or any(t.groups[VERSIONS * t.objects:]):
        return None
    sets = [len(drawing.sets(edits[i].name)) for i in creates]
    return edits if all(is_object_sound(t, k, i, sets[k]) for k, i in enumerate(creates)) else None


def stepped(groups, sets, new):
    """Document 01's step for a new Set: bit i of a group stands for the object's i-th Set."""
    bit, foes = 1 << len(sets), rules.foes_in(sets + (new,))[new]
    compatible = sum(1 << i for i, s in enumerate(sets) if s not in foes)
    staying = {g for g in groups if g & ~compatible}
    holding = {g & compatible | bit for g in groups}
    largest = {g for g in holding if not any(g != h and g & h == g for h in holding)}
    return sorted(staying | largest)


def arrived(t, record):
    edits = sound_edits(t)
    if edits is None:
        return Outcome(8)
    drawing = rules.Drawing(t.sites, edits)
    misfit = drawing.misfit(record)
    if misfit:
        return Outcome(misfit)
    new = rules.Edit(record)
    if drawing.is_full(new):
        return Outcome(6)
    after = taken(t, drawing, new)
    records = records_in(t)
    if t == replayed(t.sites, records) and after != replayed(t.sites, records + (record,)):
        raise AssertionError("the step from true groups does not give those of the definition")
    return Outcome(0, tables=after) if after else Outcome(7)


def taken(t, drawing, new):
    """The tables with this edit after those held; None where the step gives more groups than a row has."""
    rows = [row(t, k) for k in range(t.objects)]
    if new.kind == rules.CREATE:
        rows.append((0,))
    elif new.sets():
        k = [c.name for c in drawing.creates()].index(new.target)
        rows[k] = stepped(rows[k], drawing.sets(new.target), new)
        if len(rows[k]) > VERSIONS:
            return None
    return built(t.sites, records_in(t) + (new.record,), drawing.edits + (new,), rows)


def opened(t, n):
    if not has_lengths(t):
        return Outcome(8)
    return Outcome(0, tables=empty(n)) if 1 <= n <= SITES else Outcome(9)


def read(t, data):
    if not has_lengths(t):
        return Outcome(8)
    try:
        n, records = rules.locate(data)[0], rules.records_of(data)
    except rules.Refused as refusal:
        return Outcome(refusal.number)
    for i, record in enumerate(records):
        number = answer(n, records[:i], record)
        if number:
            return Outcome(number, value=i, tables=empty(n))
    return Outcome(0, tables=replayed(n, records))


def located(data):
    try:
        return Outcome(0, *rules.locate(data))
    except rules.Refused as refusal:
        return Outcome(refusal.number)


def checked(t):
    if not has_lengths(t) or not 1 <= t.sites <= SITES or t.records > RECORDS:
        return Outcome(8)
    return Outcome(0 if t == replayed(t.sites, records_in(t)) else 8)


def as_numbers(values):
    """Numbers of 64 bits as they are lent."""
    return struct.pack("<%dQ" % len(values), *values)


def enumerated(t, box, output):
    """The groups of the box whose Create has this name, where the output is so many bytes."""
    edits = sound_edits(t)
    if edits is None:
        return Outcome(8)
    if len(output) != len(as_numbers((0,) * VERSIONS)):
        return Outcome(11)
    drawing = rules.Drawing(t.sites, edits)
    if box not in [c.name for c in drawing.creates()]:
        return Outcome(5)
    sets = drawing.sets(box)
    if len(sets) > DECIDED:
        return Outcome(18)
    groups = maximal_groups(sets)
    if len(groups) > VERSIONS:
        return Outcome(7)
    return Outcome(0, value=len(groups), output=as_numbers(filled(groups, VERSIONS)))


def put(data, output, start):
    """Bytes put into the output at a start, where there is room for them from there on."""
    if start > len(output) or len(output) - start < len(data):
        return Outcome(11)
    return Outcome(0, value=len(data), output=output[:start] + data + output[start + len(data):])


def written(t, output, start):
    if sound_edits(t) is None:
        return Outcome(8)
    data = b"".join(records_in(t))
    block = data + rules.TRAILER.pack(t.records, t.sites, rules.LONG, len(data))
    return put(block, output, start)


@lru_cache(maxsize=64)
def lines(t):
    """All lines of sound tables, as bytes."""
    drawing = rules.Drawing(t.sites, sound_edits(t))
    rows = {c.name: row(t, k) for k, c in enumerate(drawing.creates())}
    boxes = [line for c in drawing.ordered() for line in drawing.box_lines(c, rows[c.name])]
    head = "sites %d objects %d versions %d sum %d" % (t.sites, t.objects, len(boxes), t.sum)
    return [line.encode() + b"\n" for line in [head] + boxes]


def line_put(t, number, output, start):
    if sound_edits(t) is None:
        return Outcome(8)
    if number >= len(lines(t)):
        return Outcome(12)
    return put(lines(t)[number], output, start)


def listed(t, output, start):
    if sound_edits(t) is None:
        return Outcome(8)
    return put(b"".join(lines(t)), output, start)
