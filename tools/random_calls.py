"""Random input for the calls: drawings, sound tables whose groups are not true, records that are refused, outputs."""
from independent_tables import (ENTRY, OBJECTS, PLACE, RECORD, RECORDS, SETS, SITES, VERSIONS, Tables, as_numbers,
                                built, history, replayed, row, rules, sound_edits)
from random_edits import disputed, edited, full, long_lists, pairs, recoloured, settled
from random_files import no_kind, spoilt_list
from stored import (COUNT, KEY, LIMITED, MEMBER, MEMBERS, OLD_SITES, TARGET_SEQ, TARGET_SITE, VALUE, VECTOR, limited,
                    old)
from stored import record as stored_record

BYTE, HALF, LARGEST = 1 << 8, 1 << 16, (1 << 64) - 1
ROOMS = ("just fits", "longer", "one byte short", "start at the end", "start past the end", "largest start",
         "start that would wrap")


# the numbers of an output of groups
ROW_LENGTHS = {"a row": VERSIONS, "one number short": VERSIONS - 1, "one number long": VERSIONS + 1, "no number": 0}
# names that no Create has
NAMELESS = ("a Set", "the next edit of a site", "sequence number 0", "no site of the drawing", "largest name")


def random_drawing(rng):
    """N and the records of a drawing in an order of arrival; now and then one that goes past a limit."""
    shape, sites = rng.random(), rng.randint(2, SITES)
    if shape < 0.12:
        made, sites = pairs(rng, rng.choice((3, 4, 5, 6, 6)), rng.randrange(4)), 3
    elif shape < 0.26:
        made = disputed(rng, sites, 4, 3, rng.choice((0.0, 0.5)))
    elif shape < 0.3:
        made, sites = full(*rng.choice(((257, 5, 64), (257, 64, 3), (65, 65, 0), (80, 2, 65)))), 1
    elif shape < 0.34:
        made, sites = rng.choice((settled(64), long_lists(rng, rng.choice((15, 16, 17))))), 3
    elif shape < 0.54:
        made = recoloured(rng, sites)
    else:
        sites = rng.randint(1, rng.choice((OLD_SITES, SITES)))
        made = edited(rng, sites, rng.randrange(8, 60), rng.choice((1, 2, 4, 16)), rng.choice((2, 3, 1 << 32)),
                      rng.choice((0.0, 0.1, 0.4)), rng.choice((0.0, 0.5)))
    # a site more than there are authors, where it can be
    return min(SITES, sites + rng.choice((0, 1, 1))), [e[2] for e in made]


def random_tables(rng):
    """Tables of the stated lengths that hold anything."""
    def numbers(below, length):
        return tuple(rng.randrange(below) for _ in range(length))
    return Tables(rng.randrange(BYTE), rng.randrange(HALF), rng.randrange(HALF), numbers(HALF, SITES),
                  rng.randrange(rules.WRAP), rng.randbytes(RECORDS * PLACE), numbers(HALF, OBJECTS * ENTRY),
                  numbers(LARGEST + 1, OBJECTS * VERSIONS))


def random_row(rng, sets, true):
    """Ascending groups within the bits: any, or the true ones and more; often a full row, which a disputed Set may
    crowd."""
    groups = set(true if rng.random() < 0.5 else ())
    most = rng.choice((1, 2, 4, 16, *(VERSIONS,) * 6))
    for _ in range(2 * most):
        if len(groups) < most:
            groups.add(rng.getrandbits(sets) if sets else 0)
    return sorted(groups)


def untrue_tables(rng, n, records):
    """Sound tables of these records with groups of any kind; None where no sound tables hold these records."""
    records = tuple(records)
    edits = history(n, records)
    if edits is None or len(records) > RECORDS:
        return None
    drawing = rules.Drawing(n, edits)
    sets = [len(drawing.sets(c.name)) for c in drawing.creates()]
    if len(sets) > OBJECTS or any(s > SETS for s in sets):
        return None
    true = replayed(n, records)
    return built(n, records, edits, [random_row(rng, s, row(true, k) if true else ()) for k, s in enumerate(sets)])


def altered(record, changes):
    """The record with other bytes at these places."""
    out = bytearray(record)
    for at, value in changes.items():
        out[at] = value % BYTE
    return bytes(out)


def malformed(rng, n, record):
    """The record with one of its fields as no record has it."""
    site = min(record[1], SITES - 1)
    own = VECTOR + 2 * site
    choices = [{0: no_kind(rng)}, {1: rng.choice((n, SITES, 255))}, {2: 0, 3: 0, own: 0, own + 1: 0},
               {2: record[2] + 1}, {own + 1: 1}, {KEY: rng.choice((16, 255))}]
    if n < SITES:
        choices.append({VECTOR + 2 * rng.randrange(n, SITES) + rng.randrange(2): rng.randrange(1, BYTE)})
    if record[0] in rules.AIMED:
        choices.append({TARGET_SEQ: 0, TARGET_SEQ + 1: 0})
    if record[0] in rules.LAYERS:
        choices.append({rng.choice((KEY, *range(VALUE, RECORD))): rng.randrange(1, 16)})
    if record[0] == rules.CREATE:
        choices.append({rng.randrange(TARGET_SITE, RECORD): rng.randrange(1, BYTE)})
    if record[0] == LIMITED:
        zeros = [COUNT + 2, COUNT + 3, *range(MEMBERS + 1, len(record), MEMBER)]
        choices += [{rng.choice(zeros): rng.randrange(1, BYTE)}, {COUNT: record[COUNT] + 1}, {COUNT + 1: 1}]
    return altered(record, rng.choice(choices))


def another_list(rng, n, record, held=()):
    """The record as a Set limited to what is likely no version: a name less, more or other than it lists, some of its
    box among these records, or any."""
    e = rules.Edit(record)
    target = e.target if e.kind != rules.CREATE else e.name
    names = [(site, seq) for site, _, seq in e.members]
    others = [a.name for a in map(rules.Edit, held) if a.sets() and a.target == target]
    some = [(rng.randrange(n), rng.randrange(1, 9)) for _ in range(rng.randrange(1, 4))]
    members = rng.choice((names[1:], names[:-1], names + some[:1], names[1:] + some[:1], some, [],
                          names[1:] + rng.sample(others, min(1, len(others))),
                          rng.sample(others, min(rng.randrange(1, 6), len(others)))))
    return limited(e.site, e.vector, target, e.key % 16, e.value, sorted(set(members))[:rules.MEMBERS])


def lowered(rng, record):
    """The record as if its author had seen less of another site."""
    others = [s for s in range(SITES) if s != record[1] and record[VECTOR + 2 * s] > 0]
    if not others:
        return record
    at = VECTOR + 2 * rng.choice(others)
    return altered(record, {at: rng.randrange(record[at])})


def astray(rng, record):
    """The record as a Set or a layer edit of what is no Create that it has seen: another site, itself, a later edit, a
    Set."""
    site, seq = record[TARGET_SITE], record[TARGET_SEQ]
    target = rng.choice(((250, 1), (record[1], record[2]), (site, seq + 1), (site, 200),
                         (rng.randrange(SITES), rng.randrange(1, 9))))
    kind = rng.choice(rules.AIMED)
    empty = {at: 0 for at in (KEY, *range(VALUE, RECORD))} if kind in rules.LAYERS else {}
    behind = record[RECORD:] or bytes(MEMBERS - RECORD) if kind == LIMITED else b""
    return altered(record[:RECORD] + behind, {0: kind, TARGET_SITE: target[0], TARGET_SEQ: target[1] or 1, **empty})


def late(rng, t):
    """A Set by a site of which no edit is held, and which has seen a box and nothing since: it disputes what others
    set there. It is a plain one, or limited to the one version that it has seen. None where these sound tables have no
    such site, or no Sets."""
    edits = sound_edits(t)
    silent = [s for s in range(t.sites) if t.held[s] == 0]
    sets = [e for e in edits if e.sets()]
    if not silent or not sets:
        return None
    site, other = rng.choice(silent), rng.choice(sets)
    create = next(e for e in edits if e.name == other.target)
    vector = [1 if s == site else seen for s, seen in enumerate(create.vector)]
    what = site, vector, other.target, other.key, rng.randrange(BYTE)
    return rng.choice((stored_record(rules.SET, *what), limited(*what, [])))


def tries(rng, n, held, coming):
    """Records that may arrive when these are held and these are to come; most are refused."""
    one = coming[0] if coming else held[-1] if held else bytes(RECORD)
    out = [one[:-1], one + b"\0", b"", old(one), rng.randbytes(RECORD), malformed(rng, n, one), lowered(rng, one),
           lowered(rng, one), astray(rng, one), rng.choice(coming or [one]), rng.choice(held or [one]),
           another_list(rng, n, one, held), another_list(rng, n, one, held), one.ljust(PLACE, b"\0"), bytes(PLACE)]
    if one[0] == LIMITED:
        out += [spoilt_list(rng, one), spoilt_list(rng, one), one[:RECORD], one[:MEMBERS]]
    return rng.sample(out, 3)


def no_creates(rng, t):
    """A name of each kind that no Create of these sound tables has; of a Set only where there is one."""
    sets = [e.name for e in sound_edits(t) if e.sets()]
    site = rng.randrange(t.sites)
    names = {"a Set": rng.choice(sets) if sets else None, "the next edit of a site": (site, t.held[site] + 1),
             "sequence number 0": (site, 0), "no site of the drawing": (t.sites, 1),
             "largest name": (BYTE - 1, HALF - 1)}
    return {kind: name for kind, name in names.items() if name}


def row_room(rng, kind):
    """An output for groups, of random numbers."""
    return as_numbers([rng.randrange(LARGEST + 1) for _ in range(ROW_LENGTHS[kind])])


def room(rng, kind, size):
    """An output of random bytes and a start in it, with or without room for so many bytes."""
    start, behind = rng.randrange(40), rng.randrange(1, 40)
    if kind in ("just fits", "longer", "one byte short"):
        length = start + size + {"just fits": 0, "longer": behind, "one byte short": -1}[kind]
    else:
        length = rng.choice((0, behind, size + behind))
        start = {"start at the end": length, "start past the end": length + behind, "largest start": LARGEST,
                 "start that would wrap": LARGEST + 1 - min(size, 1 + start)}[kind]
    return rng.randbytes(length), start
