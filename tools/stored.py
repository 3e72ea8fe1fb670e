"""The layout of documents 01 and 02: an edit record and the stored block, as bytes, in the long form and in the old
one. It knows nothing of the crates."""
import struct

SITES, OLD_SITES = 16, 8
# the bytes of a record, but that a limited Set goes on behind them; and of an old one
RECORD, OLD_RECORD = 44, 28
# the fourth byte of a trailer, and where it stands from the file's end
OLD, LONG = 0, 1
FORM = -5
CREATE = 1
SET = 2
LIMITED = 3
TOP = 4
BOTTOM = 5
# where the vector starts, and where the fields behind it stand; in an old record they stand so many bytes earlier
VECTOR = 4
TARGET_SITE, KEY, TARGET_SEQ, VALUE = 36, 37, 38, 40
EARLIER = RECORD - OLD_RECORD
# where a limited Set has the count of its members, two zero bytes and the members; a member's bytes, and the most
COUNT, ZEROS, MEMBERS = 44, 46, 48
MEMBER, MOST_MEMBERS = 4, 16
# the bytes of a place in the table of records, which has room for the longest one
PLACE = MEMBERS + MEMBER * MOST_MEMBERS


def record(kind, site, vector, target=(0, 0), key=0, value=0, seq=None):
    """An edit of a site, whose sequence number is its own entry of the vector unless another is given; entries left
    out are 0."""
    vector = list(vector) + [0] * (SITES - len(vector))
    seq = vector[site] if seq is None else seq
    return struct.pack("<BBH%dHBBHI" % SITES, kind, site, seq, *vector, target[0], key, target[1], value)


def limited(site, vector, target, key, value, members, count=None, seq=None):
    """A Set that is limited to the version that these members name, each a site and a sequence number; the count is
    the right one unless another is given."""
    listed = b"".join(struct.pack("<BBH", s, 0, n) for s, n in members)
    count = len(members) if count is None else count
    return record(LIMITED, site, vector, target, key, value, seq) + struct.pack("<HH", count, 0) + listed


def span(data):
    """How many bytes the record at the front has: that of a limited Set by the count that is stored."""
    if data[0] != LIMITED:
        return RECORD
    return MEMBERS + MEMBER * int.from_bytes(data[COUNT:ZEROS], "little")


def old(record):
    """The old record that is read as this one, where the entries of the further sites are 0 and nothing is listed."""
    return record[:VECTOR + 2 * OLD_SITES] + record[VECTOR + 2 * SITES:RECORD]


def long(record):
    """The long record that an old one is read as, whatever its kind."""
    return record[:VECTOR + 2 * OLD_SITES] + bytes(EARLIER) + record[VECTOR + 2 * OLD_SITES:]


def word_sum(records):
    """The words of these records, four bytes each, added up and wrapped at the top of 32 bits."""
    return sum(sum(struct.unpack("<%dI" % (len(r) // 4), r)) for r in records) % (1 << 32)


def forms(sites, records):
    """The forms that a drawing of so many sites with these records can be stored in."""
    has_old = sites <= OLD_SITES and all(r[0] in (CREATE, SET) for r in records)
    return (OLD, LONG) if has_old else (LONG,)


def trailer(number, sites, form=LONG, distance=None):
    """The trailer of so many records; unless a distance is given it is that of records none of which is limited."""
    if distance is None:
        distance = number * (OLD_RECORD if form == OLD else RECORD)
    return struct.pack("<HBBI", number, sites, form, distance)


def closed(sites, stored, form=LONG):
    """Records that are in this form already, and their trailer."""
    body = b"".join(stored)
    return body + trailer(len(stored), sites, form, len(body))


def block(sites, records, form=LONG):
    """The stored block of a drawing of so many sites that holds these long records."""
    return closed(sites, [old(r) for r in records] if form == OLD else records, form)
