"""The cases of Req 06, by name: Sets limited to one version, with the lists that document 02's words give, the records
that are refused, and the blocks whose records have several lengths."""
from cases import BOX, as_made, boxes, causal_orders, create, edit, head, in_forms, put, refusal, stored, text
from random_edits import settled
from stored import COUNT, CREATE, MEMBERS, OLD, PLACE, RECORD, SET, TOP, ZEROS, closed, limited, old, trailer


def only(site, vector, key, value, *members, box=BOX):
    """A Set limited to the version that these members name."""
    return as_made(limited(site, vector, box, key, value, members))


# two versions, of key 2; then what engineers make of them who had both before them
ONE, OTHER = put(1, (1, 1, 0), 2, 40), put(2, (1, 0, 1), 2, 44)
RED = only(0, (2, 1, 1), 3, 7, (1, 1))
UNSEEN = put(3, (1, 0, 0, 1), 3, 2)

# the edits after the Create 0.1, N = 4, and the lines of the versions
TAKEN = {
    "one of two versions is recoloured": ([ONE, OTHER, only(0, (2, 1, 1), 2, 9, (1, 1))],
                                          ["0.1 1.1 2=9", "0.1 2.1 2=44"]),
    "one of two versions gets another key": ([ONE, OTHER, RED], ["0.1 1.1 2=40 3=7", "0.1 2.1 2=44"]),
    "a plain Set in its place": ([ONE, OTHER, put(0, (2, 1, 1), 3, 7)], ["0.1 1.1 2=40 3=7", "0.1 2.1 2=44 3=7"]),
    "a third engineer's plain Set": ([ONE, OTHER, RED, put(3, (1, 0, 0, 1), 5, 9)],
                                     ["0.1 1.1 2=40 3=7 5=9", "0.1 2.1 2=44 5=9"]),
    "a plain Set that has seen it": ([ONE, OTHER, RED, put(3, (2, 1, 1, 1), 3, 9)],
                                     ["0.1 1.1 2=40 3=9", "0.1 2.1 2=44 3=9"]),
    "a version that another has split": (
        [ONE, OTHER, RED, only(3, (1, 1, 1, 1), 3, 8, (1, 1)), only(2, (1, 1, 2), 5, 9, (1, 1))],
        ["0.1 0.2+1.1 2=40 3=7 5=9", "0.1 1.1+3.1 2=40 3=8 5=9", "0.1 2.1 2=44"]),
    "a part of a version that was split": (
        [ONE, OTHER, RED, only(3, (1, 1, 1, 1), 3, 8, (1, 1)), only(2, (2, 1, 2, 1), 5, 9, (0, 2), (1, 1))],
        ["0.1 0.2+1.1 2=40 3=7 5=9", "0.1 1.1+3.1 2=40 3=8", "0.1 2.1 2=44"]),
    "a version that a limited Set disputes": (
        [ONE, OTHER, RED, put(3, (1, 0, 0, 1), 3, 8), only(2, (2, 1, 2, 1), 5, 9, (0, 2), (1, 1))],
        ["0.1 0.2+1.1 2=40 3=7 5=9", "0.1 1.1+3.1 2=40 3=8", "0.1 2.1+3.1 2=44 3=8"]),
    "one key of either version": ([ONE, OTHER, RED, only(3, (1, 1, 1, 1), 3, 8, (2, 1))],
                                  ["0.1 0.2+1.1 2=40 3=7", "0.1 2.1+3.1 2=44 3=8"]),
    "a context that holds a limited Set": (
        [ONE, OTHER, RED, only(1, (2, 2, 1), 4, 5, (1, 1)), put(3, (1, 0, 0, 1), 3, 9)],
        ["0.1 0.2+1.1 2=40 3=7 4=5", "0.1 1.1+3.1 2=40 3=9", "0.1 2.1+3.1 2=44 3=9"]),
    "a dispute that was not seen": (
        [ONE, OTHER, put(1, (1, 2, 0), 3, 1), UNSEEN, only(0, (2, 2, 1), 4, 5, (1, 1))],
        ["0.1 1.1+1.2 2=40 3=1 4=5", "0.1 1.1+3.1 2=40 3=2", "0.1 1.2+2.1 2=44 3=1", "0.1 2.1+3.1 2=44 3=2"]),
    "no members, one version": ([ONE, only(0, (2, 1), 3, 7)], ["0.1 - 2=40 3=7"]),
    "no members, disputed later": ([ONE, only(0, (2, 1), 3, 7), OTHER], ["0.1 1.1 2=40 3=7", "0.1 2.1 2=44"]),
    "a plain Set in the place of no members": ([ONE, put(0, (2, 1), 3, 7), OTHER],
                                               ["0.1 1.1 2=40 3=7", "0.1 2.1 2=44 3=7"]),
    "no members, no Sets": ([only(1, (1, 1), 2, 40), OTHER], ["0.1 1.1 2=40", "0.1 2.1 2=44"]),
    "no members, one square": ([put(1, (1, 1, 0), 0, 8), put(2, (1, 0, 1), 0, 15), only(0, (2, 1, 1), 2, 5)],
                               ["0.1 - 0=8 2=5"]),
}

# a Set that nothing disputes, a second box with a dispute of its own, and a layer edit
CALM = put(1, (1, 2, 0), 5, 6)
SECOND = [edit(CREATE, 0, (2, 0, 0)), edit(SET, 1, (2, 2, 0), (0, 2), 2, 1), edit(SET, 2, (2, 0, 2), (0, 2), 2, 2)]
# the edits after the Create 0.1, of which the last one is refused, with the number
REFUSED = {
    "no member where there are two versions": ([ONE, OTHER, only(0, (2, 1, 1), 3, 7)], 16),
    "the members of two versions": ([ONE, OTHER, only(0, (2, 1, 1), 3, 7, (1, 1), (2, 1))], 16),
    "the Create as a member": ([ONE, OTHER, only(0, (2, 1, 1), 3, 7, (0, 1), (1, 1))], 16),
    "itself as a member": ([ONE, OTHER, only(0, (2, 1, 1), 3, 7, (0, 2), (1, 1))], 16),
    "a member that is not held": ([ONE, OTHER, only(0, (2, 1, 1), 3, 7, (1, 1), (1, 2))], 16),
    "a member of sequence number 0": ([ONE, OTHER, only(0, (2, 1, 1), 3, 7, (1, 0), (1, 1))], 16),
    "a member of no site": ([ONE, OTHER, only(0, (2, 1, 1), 3, 7, (1, 1), (255, 65535))], 16),
    "a member that was not seen": ([ONE, OTHER, only(0, (2, 1, 0), 3, 7, (2, 1))], 16),
    "a member disputed by what was not seen": ([ONE, OTHER, only(0, (2, 1, 0), 3, 7, (1, 1))], 16),
    "a member that nothing disputes": ([ONE, OTHER, CALM, only(0, (2, 2, 1), 3, 7, (1, 1), (1, 2))], 16),
    "a member in one square with the other": (
        [put(1, (1, 1, 0), 0, 8), put(2, (1, 0, 1), 0, 15), only(0, (2, 1, 1), 2, 5, (1, 1))], 16),
    "a member on another box": ([*SECOND[:1], ONE, OTHER, *SECOND[1:], only(0, (3, 2, 2), 3, 7, (1, 1), (1, 2))], 16),
    "the version of another box": ([*SECOND[:1], ONE, OTHER, *SECOND[1:], only(0, (3, 2, 2), 3, 7, (1, 2))], 16),
    "a layer edit as a member": (
        [ONE, OTHER, edit(TOP, 1, (1, 2, 0), BOX), only(0, (2, 2, 1), 3, 7, (1, 1), (1, 2))], 16),
    "a part of an identifier": (
        [ONE, OTHER, put(1, (1, 2, 0), 3, 1), put(2, (1, 0, 2), 3, 2), only(0, (2, 2, 2), 4, 7, (1, 1))], 16),
    "members in conflict by a context alone": (
        [ONE, OTHER, RED, put(3, (1, 0, 0, 1), 3, 8), only(2, (2, 1, 2, 1), 5, 9, (0, 2), (2, 1))], 16),
    "a member without those of its context": (
        [ONE, OTHER, RED, put(3, (1, 0, 0, 1), 3, 8), only(2, (2, 1, 2, 1), 5, 9, (0, 2))], 16),
    "an identifier that counts what was not seen": (
        [ONE, OTHER, put(1, (1, 2, 0), 3, 1), UNSEEN, only(0, (2, 2, 1), 4, 5, (1, 1), (1, 2))], 16),
    "a version that was split, and seen so": (
        [ONE, OTHER, RED, only(3, (1, 1, 1, 1), 3, 8, (1, 1)), only(2, (2, 1, 2, 1), 5, 9, (1, 1))], 16),
    "no version, and an edit that is held": ([ONE, OTHER, only(1, (1, 1, 1), 3, 7)], 2),
    "no version, and an edit that is not held": ([ONE, OTHER, only(0, (3, 1, 1), 3, 7)], 3),
    "no version, and a torn vector": ([ONE, OTHER, CALM, put(3, (1, 2, 1, 1), 5, 1), only(0, (2, 1, 1, 1), 3, 7)], 4),
    "no version, and no such box": ([ONE, OTHER, only(0, (2, 1, 1), 3, 7, box=(1, 1))], 5),
    "a key above 15": ([ONE, OTHER, only(0, (2, 1, 1), 16, 7, (1, 1))], 1),
    "a target of sequence number 0": ([ONE, OTHER, only(0, (2, 1, 1), 3, 7, (1, 1), box=(0, 0))], 1),
    "members out of order": ([ONE, OTHER, only(0, (2, 1, 1), 3, 7, (2, 1), (1, 1))], 1),
    "members of one site out of order": ([ONE, OTHER, only(0, (2, 1, 1), 3, 7, (1, 2), (1, 1))], 1),
    "a member twice": ([ONE, OTHER, only(0, (2, 1, 1), 3, 7, (1, 1), (1, 1))], 1),
}


def at_length(many):
    """Sites 1 and 2, neither seeing the other, set key 2 so many times each, to 40 and to 44."""
    return [create()] + [put(site, [1] + [i * (s == site) for s in (1, 2)], 2, 36 + 4 * site)
                         for site in (1, 2) for i in range(1, many + 1)]


def named(site, many):
    """The names of a site's first edits."""
    return [(site, seq) for seq in range(1, many + 1)]


def length_cases():
    """0, 1, 16 and 17 members."""
    for many in (1, 15, 16):
        made = at_length(many) + [only(0, (2, many, many), 3, 7, *named(1, many))]
        lines = ["0.1 %s 2=%d%s" % ("+".join("%d.%d" % m for m in named(site, many)), 36 + 4 * site, shown)
                 for site, shown in ((1, " 3=7"), (2, ""))]
        yield "%d members" % many, stored(3, made), text([head(3, 1, 2, made)] + lines)
    for many, members, number in ((17, 17, 1), (17, 16, 16), (16, 15, 16)):
        made = at_length(many) + [only(0, (2, many, many), 3, 7, *named(1, members))]
        yield "%d members of %d" % (members, many), stored(3, made), refusal(number)
    shown = "".join(" %d=%d" % (key, (48 + key) // 8 * 8 if key < 2 else 48 + key) for key in range(16))
    calm = settled(63)
    yield "64 limited Sets", stored(1, calm), text([head(1, 1, 1, calm), "0.1 -" + shown])
    yield "65 limited Sets", stored(1, settled(64)), refusal(6)
    yield "65 limited Sets, the last of no version", stored(1, settled(64, [(0, 2)])), refusal(16)


def changed(record, at, value):
    return record[:at] + bytes((value,)) + record[at + 1:]


def walk_cases():
    """Records of several lengths: the distance is their sum, by what is stored in each, or the trailer is unfit."""
    before, last = [e[2] for e in (create(), ONE, OTHER)], RED[2]
    many = limited(0, (2, 1, 1), BOX, 3, 7, named(1, 17))
    ends = {  # the last record, and the number; the distance is that of its bytes
        "a count of 17 with 17 members": (many, 1), "a count of 17 with 16": (many[:-4], 10),
        "a count of 16 with 17": (changed(many, COUNT, 16), 10), "a count of 0 with 1": (changed(last, COUNT, 0), 10),
        "a count of 2 with 1": (changed(last, COUNT, 2), 10),
        "a count of 257 with 1": (changed(last, COUNT + 1, 1), 10),
        "a count of 65535 with 1": (last[:COUNT] + b"\xff\xff" + last[ZEROS:], 10),
        "no count": (last[:RECORD], 10), "half a count": (last[:COUNT + 1], 10), "no zero bytes": (last[:ZEROS], 10),
        "no member": (last[:MEMBERS], 10), "a byte less": (last[:-1], 10), "a byte more": (last + b"\0", 10),
        "a first zero byte of 1": (changed(last, ZEROS, 1), 1), "a second one of 1": (changed(last, ZEROS + 1, 1), 1),
        "a member's zero byte of 1": (changed(last, MEMBERS + 1, 1), 1),
        "a place of zeros behind": (last.ljust(PLACE, b"\0"), 10), "a plain Set's kind": (changed(last, 0, SET), 10)}
    for name, (record, number) in ends.items():
        yield "%s at the end" % name, closed(4, before + [record]), refusal(number)
        yield "%s behind a picture" % name, bytes(300) + closed(4, before + [record]), refusal(number)
    taken = text([head(4, 1, 2, [create(), ONE, OTHER, RED]), *TAKEN["one of two versions gets another key"][1]])
    body = b"".join(before + [last])
    # by four times 44 the walk starts within the Create, meets no limited Set and ends at the trailer
    for distance, said in ((len(body), taken), (len(body) - 4, refusal(10)), (len(body) + 4, refusal(10)),
                           (4 * RECORD, refusal(1))):
        yield "a distance of %d" % distance, bytes(RECORD) + body + trailer(4, 4, distance=distance), said
    for number in (3, 5):
        yield "%d records, but 4" % number, bytes(RECORD) + body + trailer(number, 4, distance=len(body)), refusal(10)
    # a limited Set between others: its list may take the next record for members, or be taken for a record
    behind = put(3, (2, 1, 1, 1), 5, 9)[2]
    yield "a next record as members", closed(4, before + [changed(last, COUNT, 12) + behind]), refusal(1)
    yield "a next record as members, and counted", closed(4, before + [changed(last, COUNT, 12), behind]), refusal(10)
    yield "members as a next record", closed(4, before + [changed(last, COUNT, 0), behind]), refusal(10)
    old_ones = [old(r) for r in before]
    for name, record, number in (("a limited Set", old(last), 1), ("with its list", old(last) + last[RECORD:], 10)):
        yield "%s in an old block" % name, closed(4, old_ones + [record], OLD), refusal(number)


def limited_cases():
    """Name, file, and what is to be printed of it by document 02's word."""
    for name, (sets, lines) in TAKEN.items():
        wanted = text([head(4, 1, len(lines), [create()] + sets)] + lines)
        for order in causal_orders([create()] + sets):
            yield from in_forms("limited: " + name, 4, order, wanted)
    for name, (made, number) in REFUSED.items():
        yield "limited: " + name, stored(4, boxes(1) + made), refusal(number)
    for name, data, said in (*length_cases(), *walk_cases()):
        yield "limited: " + name, data, said
