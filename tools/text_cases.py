"""Texts of drawings, by name: those that are none, with the line and what is said of it; those that are one though the
rules refuse the drawing, with the number; those that can be shorter; and those whose pictures are drawn."""

TWO = "sites 3 long\n0.1 create\n"
OLD = "sites 3 old\n0.1 create\n"

# the text, the number of the bad line, and a part of what is said
BAD = {
    "nothing": ("", 1, "expected sites, their number and the form"),
    "comments alone": ("# a drawing\n\n# and no more", 3, "expected sites, their number and the form"),
    "an edit first": ("\n0.1 create\n", 2, "as in: sites 3 long, but found '0.1'"),
    "no form": ("sites 3\n", 1, "the line ends"),
    "another form": ("sites 3 new\n", 1, "expected the form, long or old, but found 'new'"),
    "no sites": ("sites 0 long\n", 1, "expected 1 to 16 sites, but found '0'"),
    "seventeen sites": ("sites 17 long\n", 1, "expected 1 to 16 sites"),
    "nine sites of an old block": ("sites 9 old\n", 1, "expected 1 to 8 sites, but found '9'"),
    "a word behind the form": ("sites 3 long please\n", 1, "expected the end of the line, but found 'please'"),
    "a second head": ("sites 3 long\nsites 3 long\n", 2, "expected the name of an edit"),
    "no name": (TWO + "create\n", 3, "expected the name of an edit, as in 1.1, or 'raw', but found 'create'"),
    "a name alone": (TWO + "1.1 # and then?\n", 3, "expected what the edit is: create, set"),
    "an unknown word": (TWO + "1.1 move 0.1\n", 3, "but found 'move'"),
    "a word in capitals": (TWO + "1.1 Set 0.1 2=40\n", 3, "but found 'Set'"),
    "a site too large": (TWO + "256.1 create\n", 3, "expected a site in 256.1, 0 to 255"),
    "a sequence number too large": (TWO + "1.65536 create\n", 3, "expected a sequence number in 1.65536, 0 to 65535"),
    "a zero ahead of a number": (TWO + "1.01 create\n", 3, "a sequence number in 1.01"),
    "a minus": (TWO + "1.1 set 0.1 2=-1\n", 3, "a value in 2=-1"),
    "digits of another script": (TWO + "1.1 set 0.1 2=\u0664\n", 3, "expected a value"),
    "no box": (TWO + "1.1 set\n", 3, "expected the name of a box, as in 0.1, but the line ends"),
    "a box without a dot": (TWO + "1.1 to-top 1\n", 3, "expected the name of a box, as in 0.1, but found '1'"),
    "no key": (TWO + "1.1 set 0.1\n", 3, "expected a key and its value, as in 2=40, but the line ends"),
    "no equals sign": (TWO + "1.1 set 0.1 2:40\n", 3, "but found '2:40'"),
    "a key too large": (TWO + "1.1 set 0.1 256=1\n", 3, "expected a key in 256=1, 0 to 255"),
    "a value too large": (TWO + "1.1 set 0.1 2=4294967296\n", 3, "0 to 4294967295, but found '4294967296'"),
    "a value of words": (TWO + "1.1 set 0.1 2=red\n", 3, "expected a value in 2=red"),
    "two keys": (TWO + "1.1 set 0.1 2=40 3=7\n", 3, "expected 'after' and names, 'seen' and counts, or the end"),
    "a key of a layer edit": (TWO + "1.1 to-top 0.1 2=40\n", 3, "but found '2=40'"),
    "a box of a Create": (TWO + "1.1 create 0.1\n", 3, "but found '0.1'"),
    "no members": (TWO + "1.1 limited 0.1 2=40\n", 3,
                   "expected the members of a version, as in 1.1+2.3, or -, but found '2=40'"),
    "a plus too many": (TWO + "1.1 limited 0.1 0.1+ 2=40\n", 3, "expected the members of a version"),
    "limited in an old block": (OLD + "1.1 limited 0.1 - 2=40\n", 3, "where none is limited"),
    "after nothing": (TWO + "1.1 create after\n", 3, "expected the name of an edit above, as in 1.1, but the line"),
    "after a line below": (TWO + "1.1 create after 2.1\n2.1 create\n", 3, "since no line above is 2.1"),
    "after itself": (TWO + "1.1 create after 1.1\n", 3, "since no line above is 1.1"),
    "a box below": (TWO + "1.1 set 2.1 2=40\n2.1 create\n", 3, "expected 'seen' and counts, since no line above"),
    "a member below": (TWO + "1.1 limited 0.1 2.1 2=40\n", 3, "since no line above is 2.1"),
    "an edit left out": (TWO + "0.3 create\n", 3, "expected 'seen' and counts, since no line above is 0.2"),
    "sequence number 0": (TWO + "1.0 create\n", 3, "expected 'seen' and counts, since none counts up to 1.0"),
    "a site without a count": (TWO + "16.1 create\n", 3, "since none counts up to 16.1"),
    "a site without a count in an old block": (OLD + "8.1 create\n", 3, "since none counts up to 8.1"),
    "too few counts": (TWO + "1.1 create seen 1 1\n", 3, "expected 3 counts, one for each site, or up to 16"),
    "too many counts": (TWO + "1.1 create seen" + " 1" * 17 + "\n", 3, "but found '17 counts'"),
    "nine counts of an old block": (OLD + "1.1 create seen" + " 1" * 9 + "\n", 3, "or up to 8, but found '9 counts'"),
    "a count too large": (TWO + "1.1 create seen 1 65536 0\n", 3, "expected a count, 0 to 65535, but found '65536'"),
    "counts and names": (TWO + "1.1 create seen 1 1 0 after 0.1\n", 3, "expected a count"),
    "raw nothing": (TWO + "raw\n", 3, "expected bytes, two hexadecimal digits each, but the line ends"),
    "half a byte": (TWO + "raw 012\n", 3, "expected bytes, two hexadecimal digits each, but found '012'"),
    "no digits": (TWO + "raw 0g\n", 3, "but found '0g'"),
    "a short record": (TWO + "raw " + "00" * 43 + "\n", 3, "expected 44 bytes of a record, but found '43 bytes'"),
    "an old record in a long block": (TWO + "raw " + "00" * 28 + "\n", 3, "expected 44 bytes of a record"),
    "a long record in an old block": (OLD + "raw " + "00" * 44 + "\n", 3, "expected 28 bytes of a record"),
    "a list cut off": (TWO + "raw 03" + "00" * 43 + "0100" + "0000\n", 3, "expected 52 bytes of a record"),
    "raw and more": (TWO + "raw 00 00\n", 3, "expected the end of the line"),
    "bytes in front behind an edit": (TWO + "front 00\n", 3, "bytes in front of the block are said ahead of all edits"),
    "257 edits": ("sites 1 long\n" + "".join("0.%d create\n" % i for i in range(1, 258)), 258, "at most 256 edits"),
    "65,537 bytes": ("sites 1 long\nfront %s\n\n0.1 create\n" % ("00" * 65485), 4, "65536 bytes in all"),
}

# the text, and the number with which what it stores is refused
REFUSED = {
    "a site past N": (TWO + "3.1 create\n", 1),
    "a sequence number that is not its own count": (TWO + "1.1 create seen 1 2 0\n", 1),
    "sequence number 0, said in full": (TWO + "1.0 create seen 1 0 0\n", 1),
    "key 16": (TWO + "1.1 set 0.1 16=40\n", 1),
    "members out of order": (TWO + "1.1 set 0.1 2=1\n2.1 set 0.1 2=2\n0.2 limited 0.1 2.1+1.1 3=1\n", 1),
    "17 members": (TWO + "1.1 limited 0.1 %s 2=1 seen 1 1 0\n" % "+".join("2.%d" % i for i in range(1, 18)), 1),
    "a layer edit in an old block": (OLD + "1.1 to-top 0.1\n", 1),
    "a count past N": (TWO + "1.1 create seen 1 1 0 1\n", 1),
    "no kind": (TWO + "raw " + "0a" * 44 + "\n", 1),
    "a Create with a value": (OLD + "raw " + "01000200" + "0200" + "00" * 21 + "01\n", 1),
    "the same edit twice": (TWO + "0.1 create\n", 2),
    "an edit ahead of one that it has seen": (TWO + "2.1 set 0.1 2=44 seen 1 1 1\n1.1 set 0.1 2=40\n", 3),
    "a torn vector": (TWO + "1.1 set 0.1 2=40\n2.1 set 0.1 2=44 seen 0 1 1\n", 4),
    "a box that was not seen": (TWO + "1.1 set 0.1 2=40 seen 0 1 0\n", 5),
    "a box that is none": (TWO + "0.2 set 0.1 2=40\n0.3 set 0.2 2=40\n", 5),
    "no such version": (TWO + "1.1 set 0.1 2=40\n2.1 set 0.1 2=44\n0.2 limited 0.1 - 3=1 after 1.1 2.1\n", 16),
}

SIDES = TWO + "1.1 set 0.1 2=40\n2.1 set 0.1 2=44\n"
# the text, and the shortest one that says the same
SHORTER = {
    "counts that are the usual ones": (TWO + "1.1 set 0.1 2=40 seen 1 1 0\n", TWO + "1.1 set 0.1 2=40\n"),
    "counts that are those of names": (SIDES + "0.2 create seen 2 1 1\n", SIDES + "0.2 create after 1.1 2.1\n"),
    "the box and the edit before": (SIDES + "1.2 set 0.1 2=9 after 0.1 1.1\n", SIDES + "1.2 set 0.1 2=9\n"),
    "names in another order": (SIDES + "0.2 create after 2.1 1.1 2.1\n", SIDES + "0.2 create after 1.1 2.1\n"),
    "a name that another had seen": (SIDES + "2.2 create after 1.1\n0.2 create after 1.1 2.1 2.2\n",
                                     SIDES + "2.2 create after 1.1\n0.2 create after 2.2\n"),
    "a member": (SIDES + "0.2 limited 0.1 1.1 3=7 after 1.1 2.1\n", SIDES + "0.2 limited 0.1 1.1 3=7 after 2.1\n"),
    "raw bytes that are an edit": (TWO + "raw 0101010001000100" + "00" * 36 + "\n", TWO + "1.1 create after 0.1\n"),
    "capital digits": ("sites 1 long\nraw " + "0A" * 44 + "\n", "sites 1 long\nraw " + "0a" * 44 + "\n"),
    "bytes in front, in short rows": ("sites 1 long\nfront AB\nfront CD\n", "sites 1 long\nfront abcd\n"),
}


def rounds(sites, times):
    """Each site, having seen all that came before, sets a key of one box to its own value, so many times."""
    lines, before = ["sites %d long" % sites, "0.1 create"], "0.1"
    for i in range(times):
        name = "%d.%d" % (i % sites, i // sites + 1 + (i % sites == 0))
        lines.append("%s set 0.1 %d=%d after %s" % (name, i % 16, i, before))
        before = name
    return lines


# two sites, neither seeing the other, set one key sixteen times each, and a third one limits an edit to one side
MANY = [TWO] + ["%d.%d set 0.1 2=%d\n" % (site, i, site) for site in (1, 2) for i in range(1, 17)]
PICTURES = {
    "no edits": "sites 16 long\n",
    "a list wider than the lanes": "sites 16 long\n0.1 create\n" + "".join(
        "%d.1 set 0.1 %d=4294967295\n" % (site, site) for site in range(1, 16)),
    "long lists of names": "".join(MANY) + "0.2 limited 0.1 %s 3=7 after 2.16\n" % "+".join(
        "1.%d" % i for i in range(1, 17)),
    "a dispute of sixteen sites": "sites 16 long\n0.1 create\n0.2 set 0.1 2=0\n" + "".join(
        "%d.1 set 0.1 2=%d\n" % (site, site) for site in range(1, 16)),
    "64 Sets that see each other": "\n".join(rounds(4, 64)) + "\n",
    "256 edits of one site": "sites 1 long\n0.1 create\n" + "".join("0.%d to-top 0.1\n" % i for i in range(2, 257)),
}
