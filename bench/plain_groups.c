/* The plain call that gives the groups of an object with no arrival order: its Sets are decided one after another, the
   last first, each left out before it is taken in. */
#include <string.h>

#include "plain.h"
#include "plain_index.h"

enum { DECIDED = 20 };

struct search {
    unsigned found;
    uint32_t conflicts[DECIDED];
    uint64_t groups[GROUPS];
};

/* Which Sets of object o conflict with which; gives those that conflict with any. */
static uint32_t find_conflicts(struct search *s, const struct index *x, unsigned o) {
    struct chains c;
    uint32_t any = 0;
    chains_open(&c);
    for (unsigned k = 0; k < x->sets[o]; k++) {
        uint64_t with = has_limited(x, o) ? index_limited_conflicts(x, o, k) : chains_add(&c, k, set_at(x, o, k));
        s->conflicts[k] = (uint32_t)with;
        if (with != 0) any |= (uint32_t)with | UINT32_C(1) << k;
        for (; with != 0; with &= with - 1) s->conflicts[lowest(with)] |= UINT32_C(1) << k;
    }
    return any;
}

/* Whether each of some Sets conflicts with one that may come in. */
static inline int have_foes(const struct search *s, uint32_t sets, uint32_t may) {
    for (; sets != 0; sets &= sets - 1)
        if ((s->conflicts[lowest(sets)] & may) == 0) return 0;
    return 1;
}

/* Decides the Sets of `may`, which fit all that are taken, the last first. The others are decided: they are taken, or
   conflict with one that is, or are in `out` and each need one of `may` yet that they conflict with. */
static void decide(struct search *s, uint32_t taken, uint32_t may, uint32_t out) {
    while (may != 0) {
        unsigned k = highest(may);
        uint32_t bit = UINT32_C(1) << k, foes = s->conflicts[k];
        may &= ~bit;
        if (have_foes(s, (out & foes) | bit, may)) {
            decide(s, taken, may, out | bit);
            if (s->found > GROUPS) return;
        }
        taken |= bit;
        out &= ~foes;
        if ((may & foes) == 0) continue;
        may &= ~foes;
        if (!have_foes(s, out, may)) return;
    }
    if (s->found < GROUPS) s->groups[s->found] = taken;
    s->found++;
}

static struct spireslate_groups_answer refused(unsigned number) {
    return (struct spireslate_groups_answer){(uint8_t)number, 0};
}

struct spireslate_groups_answer plain_groups(struct spireslate_counters counters, const uint8_t *records,
                                             size_t records_length, const uint16_t *objects, size_t objects_length,
                                             const uint64_t *groups, size_t groups_length, uint8_t site, uint16_t seq,
                                             uint64_t *out, size_t out_length) {
    struct index x;
    struct search s;
    if (!lengths_right(records_length, objects_length, groups_length) ||
        !index_sound(&x, &counters, records, objects, groups))
        return refused(SPIRESLATE_UNSOUND);
    if (out_length != GROUPS) return refused(SPIRESLATE_NO_ROOM);
    unsigned o = site < SITES && seq >= 1 && seq <= x.held[site] ? object_of(&x, site, seq) : OBJECTS;
    if (o == OBJECTS) return refused(SPIRESLATE_ASTRAY);
    if (x.sets[o] > DECIDED) return refused(SPIRESLATE_TOO_MANY_SETS);
    uint32_t disputed = find_conflicts(&s, &x, o), all = (UINT32_C(1) << x.sets[o]) - 1;
    s.found = 0;
    decide(&s, all & ~disputed, disputed, 0);
    if (s.found > GROUPS) return refused(SPIRESLATE_CROWDED);
    memcpy(out, s.groups, s.found * sizeof *out);
    memset(out + s.found, 0, (GROUPS - s.found) * sizeof *out);
    return (struct spireslate_groups_answer){SPIRESLATE_DONE, s.found};
}
