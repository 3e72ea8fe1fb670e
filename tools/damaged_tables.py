"""Every kind of damage to sound tables, by name.

Each changes one thing and leaves all else as sound tables have it, as far as that can be, so that no other test of
soundness finds it. A kind that tables have no place for gives None.
"""
from independent_tables import (ENTRY, OBJECTS, PLACE, RECORD, RECORDS, SETS, SITES, VERSIONS, built, history,
                                records_in, row, rules)
from random_calls import BYTE, HALF, another_list, astray, lowered, malformed, random_tables
from random_edits import full
from random_files import spoilt_list
from stored import LIMITED, old


def changed(values, at, value):
    """The same bytes or numbers, but for one."""
    return values[:at] + (bytes((value,)) if isinstance(values, bytes) else (value,)) + values[at + 1:]


def some_object(rng, t, fits):
    """The number of an object that fits, the last one among the likelier; None where there is none."""
    fitting = [k for k in range(t.objects) if fits(k)]
    return rng.choice((fitting[-1], rng.choice(fitting))) if fitting else None


def sets_of(t, k):
    return t.entries[ENTRY * k + 1]


def with_row(t, k, groups):
    """The tables with these groups for object k."""
    numbers = tuple(groups) + (0,) * (VERSIONS - len(groups))
    return t._replace(entries=changed(t.entries, ENTRY * k + 2, len(groups)),
                      groups=t.groups[:VERSIONS * k] + numbers + t.groups[VERSIONS * (k + 1):])


def length_damage():
    """Each table one element too short, one too long, and empty."""
    kinds = {}
    for field, called in (("places", "records"), ("entries", "objects"), ("groups", "groups")):
        for how, cut in (("short", lambda v: v[:-1]), ("long", lambda v: v + type(v)((0,))),
                         ("empty", lambda v: v[:0])):
            kinds["%s table %s" % (called, how)] = (
                lambda rng, t, field=field, cut=cut: t._replace(**{field: cut(getattr(t, field))}))
    return kinds


def counter(field, value):
    """Another number in a counter; None where it would be below 0."""
    def damage(rng, t):
        number = value(rng, t)
        return t._replace(**{field: number}) if number >= 0 else None
    return damage


def count_damage(by):
    def damage(rng, t):
        site = rng.randrange(t.sites)
        count = t.held[site] + by
        return t._replace(held=changed(t.held, site, count)) if count >= 0 else None
    return damage


def unused_count(rng, t):
    if t.sites == SITES:
        return None
    return t._replace(held=changed(t.held, rng.randrange(t.sites, SITES), rng.randrange(1, HALF)))


def first_misfit(n, records):
    """The answer, 1 to 5 or 16, to the first record that does not fit those before it; 0 where all fit."""
    for i, record in enumerate(records):
        misfit = rules.Drawing(n, history(n, records[:i])).misfit(record)
        if misfit:
            return misfit
    return 0


def spoilt(rng, n, records, number):
    """The records with one changed, or left out, in a way that may be answered with this number."""
    at = rng.randrange(len(records))
    if number == 2:
        return records[:-1] + (rng.choice(records[:-1] or records),)
    if number == 3:
        return records[:at] + records[at + 1:]
    change = {1: lambda r: malformed(rng, n, r), 4: lambda r: lowered(rng, r), 5: lambda r: astray(rng, r),
              16: lambda r: another_list(rng, n, r)}[number]
    return records[:at] + (change(records[at]),) + records[at + 1:]


def record_damage(number):
    """A record in place that fails with this number, in tables that have counted it as any other."""
    def damage(rng, t):
        records = records_in(t)
        for _ in range(10 if records else 0):
            bad = spoilt(rng, t.sites, records, number)
            if first_misfit(t.sites, bad) == number:
                return counted(t.sites, bad)
        return None
    return damage


def counted(n, records):
    """Tables that hold these records, whether or not they fit; None where they are more than tables hold."""
    edits = tuple(rules.Edit(r) for r in records)
    objects = sum(e.kind == rules.CREATE for e in edits)
    return built(n, records, edits, [(0,)] * objects) if objects <= OBJECTS else None


def limited_places(t):
    """Which of the records are limited Sets."""
    return [i for i in range(t.records) if t.places[PLACE * i] == LIMITED]


def list_damage(rng, t):
    """A limited Set in place whose count, zero bytes or members are as no record has them."""
    records, places = records_in(t), limited_places(t)
    for _ in range(10 if places else 0):
        at = rng.choice(places)
        # with more members than can be listed it would not fit its place
        bad = records[:at] + (spoilt_list(rng, records[at])[:PLACE],) + records[at + 1:]
        if first_misfit(t.sites, bad) == 1:
            return counted(t.sites, bad)
    return None


def rest_damage(limited, last):
    """A nonzero byte behind a record in its place, a limited Set or another, at the rest's front or at its end."""
    def damage(rng, t):
        places = [i for i in range(t.records) if (i in limited_places(t)) == limited]
        rests = [(PLACE * i + len(records_in(t)[i]), PLACE * (i + 1)) for i in places]
        rests = [(first, end) for first, end in rests if first < end]
        if not rests:
            return None
        first, end = rng.choice(rests)
        return t._replace(places=changed(t.places, end - 1 if last else first, rng.randrange(1, BYTE)))
    return damage


def old_set(rng, t):
    """A Set in its place as an old record and zeros: its words are the same, so that its sum is."""
    starts = [at for at in range(0, PLACE * t.records, PLACE) if t.places[at] == rules.SET]
    if not starts:
        return None
    at = rng.choice(starts)
    stored = old(t.places[at:at + RECORD]).ljust(PLACE, b"\0")
    return t._replace(places=t.places[:at] + stored + t.places[at + PLACE:])


def of_one_site(made, rows):
    """Tables that hold these edits of one site, with these groups."""
    records = tuple(e[2] for e in made)
    return built(1, records, tuple(rules.Edit(r) for r in records), rows)


def too_many_objects(rng, t):
    """65 Creates, of which the tables have counted 64."""
    over = of_one_site(full(OBJECTS + 1, OBJECTS + 1, 0), [(0,)] * (OBJECTS + 1))
    return over._replace(objects=OBJECTS, entries=over.entries[:OBJECTS * ENTRY],
                         groups=over.groups[:OBJECTS * VERSIONS])


def too_many_sets(rng, t):
    return of_one_site(full(SETS + 3, 2, SETS + 1), [(0,), (0,)])


def adjoining_groups(rng, t):
    """33 groups, of which the last is the first one of the next row, and continues its own."""
    tables = of_one_site(full(20, 2, 6), [range(VERSIONS), [VERSIONS]])
    return tables._replace(entries=changed(tables.entries, 2, VERSIONS + 1))


def place_damage(rng, t):
    k = some_object(rng, t, lambda k: True)
    if k is None:
        return None
    return t._replace(entries=changed(t.entries, ENTRY * k, (t.entries[ENTRY * k] + rng.choice((1, HALF - 1))) % HALF))


def swapped_objects(rng, t):
    k = some_object(rng, t, lambda k: k + 1 < t.objects)
    if k is None:
        return None
    e, g = ENTRY * k, VERSIONS * k
    return t._replace(
        entries=t.entries[:e] + t.entries[e + 3:e + 6] + t.entries[e:e + 3] + t.entries[e + 6:],
        groups=t.groups[:g] + t.groups[g + 32:g + 64] + t.groups[g:g + 32] + t.groups[g + 64:])


def more_sets(rng, t):
    k = some_object(rng, t, lambda k: True)
    return None if k is None else t._replace(entries=changed(t.entries, ENTRY * k + 1, sets_of(t, k) + 1))


def fewer_sets(rng, t):
    k = some_object(rng, t, lambda k: sets_of(t, k) > 0)
    if k is None:
        return None
    # one empty group: no bit is at or past the smaller number
    return with_row(t._replace(entries=changed(t.entries, ENTRY * k + 1, sets_of(t, k) - 1)), k, [0])


def no_groups(rng, t):
    k = some_object(rng, t, lambda k: True)
    return None if k is None else with_row(t, k, [])


def too_many_groups(rng, t):
    """33 groups: the row itself is full and ascending."""
    k = some_object(rng, t, lambda k: sets_of(t, k) >= 5)
    if k is None:
        return None
    full = with_row(t, k, range(VERSIONS))
    return full._replace(entries=changed(full.entries, ENTRY * k + 2, VERSIONS + 1))


def group_count(by):
    def damage(rng, t):
        k = some_object(rng, t, lambda k: 1 <= len(row(t, k)) + by <= VERSIONS)
        return None if k is None else t._replace(entries=changed(t.entries, ENTRY * k + 2, len(row(t, k)) + by))
    return damage


def neighbours(pair):
    """Two neighbouring groups of a row become these."""
    def damage(rng, t):
        k = some_object(rng, t, lambda k: len(row(t, k)) > 1)
        if k is None:
            return None
        groups = list(row(t, k))
        i = rng.randrange(len(groups) - 1)
        groups[i:i + 2] = pair(*groups[i:i + 2])
        return with_row(t, k, groups)
    return damage


def bit_damage(bit):
    """A bit that stands for no Set, in the last group, so that the row still ascends."""
    def damage(rng, t):
        k = some_object(rng, t, lambda k: sets_of(t, k) < SETS)
        if k is None:
            return None
        groups = list(row(t, k))
        groups[-1] |= 1 << bit(sets_of(t, k))
        return with_row(t, k, groups)
    return damage


def unused(field, at):
    """A nonzero entry where there is an unused one, at the place that `at` gives."""
    def damage(rng, t):
        place, values = at(rng, t), getattr(t, field)
        if place is None:
            return None
        return t._replace(**{field: changed(values, place, rng.randrange(1, BYTE))})
    return damage


def unused_group(last):
    """A group more than its entry says in a row; the first unused one continues the row where that can be."""
    def damage(rng, t):
        k = some_object(rng, t, lambda k: len(row(t, k)) < VERSIONS)
        if k is None:
            return None
        at = VERSIONS * (k + 1) - 1 if last else VERSIONS * k + len(row(t, k))
        # above a group of all 64 Sets there is none
        more = (row(t, k)[-1] + 1) % (1 << SETS) or 1
        return t._replace(groups=changed(t.groups, at, more))
    return damage


KINDS = {
    "anything": lambda rng, t: random_tables(rng),
    **length_damage(),
    "no sites": counter("sites", lambda rng, t: 0),
    "seventeen sites": counter("sites", lambda rng, t: SITES + 1),
    "one record too many": counter("records", lambda rng, t: t.records + 1),
    "one record too few": counter("records", lambda rng, t: t.records - 1),
    "records above 256": counter("records", lambda rng, t: rng.choice((RECORDS + 1, HALF // 2, HALF - 1))),
    "one object too many": counter("objects", lambda rng, t: t.objects + 1),
    "one object too few": counter("objects", lambda rng, t: t.objects - 1),
    "objects above 64": counter("objects", lambda rng, t: rng.choice((OBJECTS + 1, HALF // 2, HALF - 1))),
    "a site's count too high": count_damage(1),
    "a site's count too low": count_damage(-1),
    "a count at or past N": unused_count,
    "a wrong sum": counter("sum", lambda rng, t: (t.sum + rng.choice((1, 1 << 16, 1 << 31, -1))) % rules.WRAP),
    "the sum of no records": counter("sum", lambda rng, t: 0 if t.sum else -1),
    **{"a record fails %d" % number: record_damage(number) for number in (*range(1, 6), 16)},
    "a Set as an old record": old_set,
    "a limited Set's list": list_damage,
    "first byte behind a record in its place": rest_damage(False, False),
    "last byte behind a record in its place": rest_damage(False, True),
    "first byte behind a limited Set": rest_damage(True, False),
    "last byte behind a limited Set": rest_damage(True, True),
    "65 Creates": too_many_objects,
    "65 Sets of an object": too_many_sets,
    "a Create's place": place_damage,
    "objects out of order": swapped_objects,
    "one Set too many": more_sets,
    "one Set too few": fewer_sets,
    "no groups": no_groups,
    "33 groups": too_many_groups,
    "33 groups with the next row's": adjoining_groups,
    "one group too many": group_count(1),
    "one group too few": group_count(-1),
    "equal groups": neighbours(lambda a, b: (a, a)),
    "descending groups": neighbours(lambda a, b: (b, a)),
    "the bit after the last Set": bit_damage(lambda sets: sets),
    "the highest bit": bit_damage(lambda sets: SETS - 1),
    "first unused record place": unused("places", lambda rng, t: (
        PLACE * t.records + rng.randrange(PLACE) if t.records < RECORDS else None)),
    "last unused record byte": unused("places", lambda rng, t: (
        RECORDS * PLACE - 1 if t.records < RECORDS else None)),
    "first unused object entry": unused("entries", lambda rng, t: (
        ENTRY * t.objects + rng.randrange(ENTRY) if t.objects < OBJECTS else None)),
    "last unused object number": unused("entries", lambda rng, t: (
        OBJECTS * ENTRY - 1 if t.objects < OBJECTS else None)),
    "first unused group of a used row": unused_group(False),
    "last unused group of a used row": unused_group(True),
    "first group of the first unused row": unused("groups", lambda rng, t: (
        VERSIONS * t.objects if t.objects < OBJECTS else None)),
    "last group of the last unused row": unused("groups", lambda rng, t: (
        OBJECTS * VERSIONS - 1 if t.objects < OBJECTS else None)),
}
