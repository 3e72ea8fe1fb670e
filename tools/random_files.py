"""Random stored drawings in both forms, and damage of every kind."""
from random_edits import disputed, edited, full, long_lists, pairs, recoloured, settled
from stored import (BOTTOM, COUNT, EARLIER, KEY, LIMITED, LONG, MEMBER, MEMBERS, MOST_MEMBERS, OLD, OLD_RECORD,
                    OLD_SITES, RECORD, SITES, TARGET_SEQ, TARGET_SITE, TOP, VECTOR, block, closed, forms, old, trailer)


def no_kind(rng, form=LONG):
    """A first byte that no record in this form has."""
    return rng.choice((0, rng.randrange(6, 256)) + ((LIMITED, TOP, BOTTOM) if form == OLD else ()))


def spoilt_list(rng, record):
    """A limited Set whose list is none, or most likely that of no version; now and then its count is not that of its
    bytes."""
    members = [record[at:at + MEMBER] for at in range(MEMBERS, len(record), MEMBER)]
    at, other = rng.randrange(len(members) + 1), bytes((rng.randrange(4), 0, rng.randrange(1, 9), 0))
    changed = rng.choice((
        members[:at] + members[at + 1:], members[:at] + [other] + members[at:], members[::-1], members + members[-1:],
        # one more than can be listed, in order
        [bytes((2, 0, seq, 0)) for seq in range(1, MOST_MEMBERS + 2)],
        [bytes((0, 0, seq, 0)) for seq in range(1, rng.randrange(2, MOST_MEMBERS + 2))]))
    count = rng.choice((len(changed),) * 6 + (len(changed) + 1, len(members), 256, 65535))
    bad = bytearray(record[:COUNT] + count.to_bytes(2, "little") + record[COUNT + 2:MEMBERS] + b"".join(changed))
    zeros = [COUNT + 2, COUNT + 3, *range(MEMBERS + 1, len(bad), MEMBER)]
    if rng.random() < 0.3:
        bad[rng.choice(zeros)] = rng.randrange(1, 256)
    return bytes(bad)


def damaged(rng, sites, records, form):
    """One thing wrong among the records, or in the trailer of a block in this form."""
    records = [old(r) for r in records] if form == OLD else list(records)
    listing = [i for i, r in enumerate(records) if r[0] == LIMITED]
    if listing and rng.random() < 0.4:
        i = rng.choice(listing)
        records[i] = spoilt_list(rng, records[i])
        return closed(sites, records, form)
    i = rng.randrange(len(records))
    bad, earlier = bytearray(records[i]), EARLIER if form == OLD else 0
    kind = rng.randrange(13)
    if kind == 0:
        bad[rng.choice((1, KEY - earlier))] = rng.choice((0, 3, 16, 200))
    elif kind == 1:
        bad[rng.randrange(len(bad))] ^= 1 << rng.randrange(8)
    elif kind == 2:
        records.insert(rng.randrange(i, len(records)) + 1, records[i])
    elif kind == 3 and len(records) > 1:
        del records[i]
        return closed(sites, records, form)
    elif kind == 4:
        records.insert(rng.randrange(len(records)), records.pop(i))
        return closed(sites, records, form)
    elif kind in (5, 6):
        return torn(rng, sites, records, form)
    elif kind == 7:
        site, seq = TARGET_SITE - earlier, TARGET_SEQ - earlier
        bad[site], bad[seq] = rng.choice((
            (bad[site], bad[seq] + 1 & 255), (250, 1), (bad[1], bad[2]), (bad[site], 0)))
    elif kind == 8:
        bad[0] = no_kind(rng, form)
    else:
        return bad_trailer(rng, sites, records, form)
    records[i] = bytes(bad)
    return closed(sites, records, form)


def torn(rng, sites, records, form):
    """An edit that has seen another one, but no longer all that this one had seen."""
    late = [i for i, r in enumerate(records) if sum(r[VECTOR + 2 * s] > 0 for s in range(sites)) > 2]
    i = rng.choice(late) if late else rng.randrange(len(records))
    bad = bytearray(records[i])
    others = [s for s in range(sites) if s != bad[1] and bad[VECTOR + 2 * s] > 0]
    if others:
        bad[VECTOR + 2 * rng.choice(others)] = 0
    records[i] = bytes(bad)
    return closed(sites, records, form)


def bad_trailer(rng, sites, records, form):
    """The records with another trailer than theirs, or cut."""
    body, number = b"".join(records), len(records)
    size, switched, other = len(body), LONG if form == OLD else OLD, RECORD if form == OLD else OLD_RECORD
    right = trailer(number, sites, form, size)
    wrong = rng.choice((
        # N: none, one too many, and more than an old block has
        trailer(number, 0, form, size), trailer(number, SITES + 1, form, size), trailer(number, 255, form, size),
        trailer(number, rng.randint(OLD_SITES + 1, SITES), form, size),
        # the form: none, or the other one
        trailer(number, sites, 2, size), trailer(number, sites, rng.randint(2, 255), size),
        trailer(number, sites, switched, size), trailer(number, sites, switched),
        # the distance and the number of records
        trailer(number, sites, form, size - 1), trailer(number, sites, form, size + 4),
        trailer(number, sites, form, other * number), trailer(number, sites, form, size - len(records[0])),
        trailer(number + 1, sites, form, size), trailer(number - 1, sites, form, size),
        trailer(257, sites, form), trailer(257, sites, form, size)))
    # bytes ahead, so that a distance does not reach before the start
    more = bytes(RECORD * (number + 1)) if rng.random() < 0.5 else b""
    return rng.choice((more + body + wrong,) * 6 + (body, body[1:] + right, b"", b"1234567", (body + right)[:-1]))


def ahead(rng, stored):
    """Bytes that are not read, ahead of the block; now and then up to the limit or past it."""
    room = 65536 - len(stored)
    size = rng.choice((rng.randrange(200), rng.randrange(200), room, room + 1))
    return rng.randbytes(size) + stored


def random_edits(rng):
    """N and the edits of a file; the third says whether they are few enough to be damaged."""
    sites = rng.randint(1, rng.choice((OLD_SITES, SITES)))
    shape, wrong = rng.random(), rng.choice((0.0, 0.0, 0.1))
    if shape < 0.08:
        return 3, pairs(rng, rng.choice((1, 2, 4, 5, 5, 6, 6)), rng.randrange(5)), False
    if shape < 0.13:
        return 1, full(*rng.choice(((256, 2, 64), (256, 64, 3), (65, 65, 0), (80, 2, 65), (130, 65, 2)))), False
    if shape < 0.15:
        return 1, settled(rng.choice((1, 62, 63, 64)), rng.choice(((), ((0, 2),)))), False
    if shape < 0.17:
        return 3, long_lists(rng, rng.choice((3, 15, 16, 17))), True
    if shape < 0.29:
        return sites, disputed(rng, sites, rng.choice((1, 3, 4)), rng.choice((3, 99)), rng.choice((0.0, 0.3, 0.7)),
                               wrong), True
    if shape < 0.5:
        return sites, recoloured(rng, sites, wrong), True
    return sites, edited(rng, sites, rng.randrange(1, 60), rng.choice((1, 2, 4, 16)), rng.choice((1, 2, 3, 1 << 32)),
                         rng.choice((0.0, 0.0, 0.1, 0.5)), rng.choice((0.0, 0.0, 0.3, 0.8)), wrong), True


def random_file(rng):
    """One file, and whether other orders of the same edits may be tried: then its sites and edits."""
    sites, made, may_be_damaged = random_edits(rng)
    records = [e[2] for e in made]
    form = rng.choice(forms(sites, records))
    if not made:
        return block(sites, [], form), None
    if may_be_damaged and rng.random() < 0.4:
        return damaged(rng, sites, records, form), None
    stored = block(sites, records, form)
    if rng.random() < 0.08:
        return ahead(rng, stored), None
    return stored, (sites, made)
