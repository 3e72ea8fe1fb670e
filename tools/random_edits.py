"""Random edits: laptops that edit and merge, some of whose engineers pick a version that they see and limit an edit to
it, and orders of one set of edits. What an engineer sees is what tools/independent makes of the edits that he has."""
from itertools import islice

from comparing import module
from stored import BOTTOM, CREATE, LIMITED, MOST_MEMBERS, SET, SITES, TOP, limited, record

rules = module("independent")
# how many versions of a box are looked at when one is picked
LOOKED_AT = 40


class Edits:
    """The edits of some laptops, each with the vector of what its author had applied."""

    def __init__(self, sites):
        self.sites = sites
        self.seen = [[0] * SITES for _ in range(sites)]
        self.boxes = [[] for _ in range(sites)]
        self.made = []
        # the Sets of each box, by the name of its Create
        self.sets = {}

    def next(self, site):
        """The vector of the next edit of a site."""
        return tuple(seen + (s == site) for s, seen in enumerate(self.seen[site]))

    def put(self, site, record):
        """Puts the next edit of a site behind the others."""
        vector = self.next(site)
        self.seen[site] = list(vector)
        self.made.append((site, vector, record))
        if record[0] == CREATE:
            self.boxes[site].append((site, vector[site]))
        if record[0] in rules.SETTING:
            e = rules.decode(record)
            self.sets[e.target] = self.sets.get(e.target, rules.Box()).joined(e, self.context(site, e))

    def make(self, site, kind, target=(0, 0), key=0, value=0):
        self.put(site, record(kind, site, self.next(site), target, key, value))

    def limit(self, site, target, key, value, members):
        """A Set limited to the version that these members name; one with more than can be listed is a plain one."""
        if len(members) > MOST_MEMBERS:
            self.make(site, SET, target, key, value)
        else:
            self.put(site, limited(site, self.next(site), target, key, value, members))

    def merge(self, to, source):
        self.seen[to] = [max(a, b) for a, b in zip(self.seen[to], self.seen[source])]
        self.boxes[to] = sorted(set(self.boxes[to]) | set(self.boxes[source]))

    def shown(self, site, box):
        """A box as a site has it before it."""
        whole = self.sets.get(box, rules.Box())
        return whole.among([e for e in whole.sets if self.seen[site][e.site] >= e.seq])

    def context(self, site, e):
        """The names of the version that an edit of a site is limited to. Where it lists none it is refused, and what
        is given does not matter: not all versions are looked at, which may be very many."""
        shown = self.shown(site, e.target)
        for group in islice(shown.versions(), LOOKED_AT if e.kind == LIMITED else 0):
            if shown.identifier(group) == e.members:
                return frozenset(rules.name(shown.sets[i]) for i in group)
        return frozenset()

    def versions(self, site, box):
        """The members that name the versions of a box that a site has before it; of very many only some."""
        shown = self.shown(site, box)
        return [shown.identifier(group) for group in islice(shown.versions(), LOOKED_AT)]


def mistaken(rng, edits, site, box, members):
    """A list that is nearly one of a version: a name less or more, that of any edit or of none, members of several
    versions, or the version of any box."""
    versions = edits.versions(site, box)
    names = [rules.name(rules.decode(e[2])) for e in edits.made] + [(site, edits.seen[site][site] + 1), (200, 9)]
    disputed = sorted({one for version in versions for one in version})
    return sorted(rng.choice((
        set(members) - {rng.choice(members)} if members else {rng.choice(names)},
        set(members) | {rng.choice(names + disputed)},
        set(rng.sample(disputed, min(len(disputed), len(members)))),
        set(rng.sample(disputed, rng.randint(0, len(disputed)))),
        set(rng.choice(edits.versions(site, rng.choice(edits.boxes[site])))))))


def limit_one(rng, edits, site, box, key, value, wrong):
    """A Set of a version that the site has before it; this part of them list what is likely no version."""
    members = rng.choice(edits.versions(site, box))
    if rng.random() < wrong:
        members = mistaken(rng, edits, site, box, members)
    edits.limit(site, box, key, value, members)


def edited(rng, sites, steps, keys, values, layers=0.0, limits=0.0, wrong=0.0):
    """Laptops that edit and merge at random; these parts are of the edits of a box the layer edits, of the others the
    limited ones, and of these the wrong ones."""
    edits = Edits(sites)
    for _ in range(steps):
        site = rng.randrange(sites)
        # fewer boxes where versions are named, so that more of them have several
        if not edits.boxes[site] or rng.random() < (0.02 if limits else 0.12):
            edits.make(site, CREATE)
        elif rng.random() < 0.3:
            edits.merge(site, rng.randrange(sites))
        elif rng.random() < layers:
            edits.make(site, rng.choice((TOP, BOTTOM)), rng.choice(edits.boxes[site]))
        else:
            # near values too, some of them in one square of the grid
            value = rng.randrange(values) * rng.choice((1, 5, 8)) % (1 << 32)
            what = rng.choice(edits.boxes[site]), rng.randrange(keys), value
            if rng.random() < limits:
                limit_one(rng, edits, site, *what, wrong)
            else:
                edits.make(site, SET, *what)
    return edits.made


def disputed(rng, sites, keys, values, limits=0.0, wrong=0.0):
    """Laptops that all have one box and seldom see each other; this part of the Sets are limited to a version."""
    edits = Edits(sites)
    edits.make(0, CREATE)
    for site in range(1, sites):
        edits.merge(site, 0)
    for _ in range(rng.randrange(6, 24)):
        if rng.random() < 0.3:
            edits.merge(rng.randrange(sites), rng.randrange(sites))
        site, what = rng.randrange(sites), ((0, 1), rng.randrange(keys), rng.randrange(values))
        if rng.random() < limits:
            limit_one(rng, edits, site, *what, wrong)
        else:
            edits.make(site, SET, *what)
    return edits.made


def recoloured(rng, sites, wrong=0.0):
    """Rounds of laptops that have one box and begin with a dispute: in each some see all, or what one other has, and
    some pick a version or take them all. So contexts hold limited Sets, and versions that another has split are named
    still."""
    edits = Edits(sites)
    edits.make(0, CREATE)
    for site in range(sites):
        edits.merge(site, 0)
    for site in range(min(sites, rng.randint(2, 3))):
        edits.make(site, SET, (0, 1), 2, 100 + site)
    for _ in range(rng.randrange(2, 7)):
        for site in range(sites):
            for other in rng.sample(range(sites), rng.choice((sites, sites, 1))):
                edits.merge(site, other)
        for site in rng.sample(range(sites), rng.randint(1, min(3, sites))):
            what = (0, 1), rng.randrange(1, 5), rng.randrange(20)
            if rng.random() < 0.8:
                limit_one(rng, edits, site, *what, wrong)
            else:
                edits.make(site, SET, *what)
    return edits.made


def long_lists(rng, many):
    """Sites 1 and 2, neither seeing the other, set one key so many times, each to its own value; site 0, which has
    seen all that, and then site 1 limit an edit to one of the two versions, where it can be named."""
    edits = Edits(3)
    edits.make(0, CREATE)
    for site in (1, 2):
        edits.merge(site, 0)
        for _ in range(many):
            edits.make(site, SET, (0, 1), 2, 10 * site)
    for site in (0, 1):
        for other in range(3):
            edits.merge(site, other)
        limit_one(rng, edits, site, (0, 1), rng.randrange(4), 99, 0.1)
    return edits.made


def settled(sets, last=()):
    """Site 0 alone: a box, so many Sets limited to its one version, which nothing disputes, and one with this list."""
    edits = Edits(1)
    edits.make(0, CREATE)
    for i in range(sets + 1):
        edits.limit(0, (0, 1), i % 16, i, last if i == sets else ())
    return edits.made


def shuffled(rng, made):
    """The same edits in another order, each after all that its author had seen."""
    left, held, out = list(made), [0] * SITES, []
    while left:
        ready = [e for e in left if all(
            v <= held[s] + (s == e[0]) for s, v in enumerate(e[1])) and e[1][e[0]] == held[e[0]] + 1]
        one = rng.choice(ready)
        left.remove(one)
        held[one[0]] += 1
        out.append(one)
    return out


def pairs(rng, number, extra):
    """Sites 1 and 2, neither seeing the other, set so many keys to different values: 2 to that power versions."""
    edits = Edits(3)
    edits.make(0, CREATE)
    edits.merge(1, 0)
    edits.merge(2, 0)
    for key in range(number):
        for site in (1, 2):
            edits.make(site, SET, (0, 1), key, 10 * site)
    for _ in range(extra):
        edits.make(0, SET, (0, 1), rng.randrange(8, 16), rng.randrange(4))
    return edits.made


def full(records, boxes, sets):
    """Site 0 alone: so many boxes, so many Sets of the first one, and Sets of the others up to so many records."""
    edits = Edits(1)
    for _ in range(boxes):
        edits.make(0, CREATE)
    for i in range(sets):
        edits.make(0, SET, (0, 1), i % 16, i)
    i = 0
    while len(edits.made) < records:
        edits.make(0, SET, (0, 2 + i % (boxes - 1)), i % 16, i)
        i += 1
    return edits.made
