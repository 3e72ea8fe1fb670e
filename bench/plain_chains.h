/* The Sets of an object by their keys: by document 01's rule a Set is in conflict with Sets of its key alone. Of two
   Sets the one that arrived first has not seen the other. */
#ifndef PLAIN_CHAINS_H
#define PLAIN_CHAINS_H

#include "plain_edit.h"

/* What a later Set asks of one. */
struct mark {
    uint32_t value; /* as it is shown */
    uint16_t seq;
    uint8_t site;
};

struct chains {
    unsigned keys; /* that are set: these have the following */
    struct chain {
        uint64_t sets; /* the Sets of the key */
        uint64_t sure; /* those of them that have seen all before them */
    } of[KEYS];
    struct mark marks[SETS];
};

static inline unsigned lowest(uint64_t mask) { return (unsigned)__builtin_ctzll(mask); }
static inline unsigned highest(uint64_t mask) { return 63 - (unsigned)__builtin_clzll(mask); }

static inline void chains_open(struct chains *c) { c->keys = 0; }

/* The Sets of a key that e may not have seen. Whoever has seen a Set has seen what that had seen: so none up to the
   last one that is seen and had seen all before it. */
static inline uint64_t chains_unsure(const struct chains *c, const struct edit *e) {
    const struct chain *chain = &c->of[e->key];
    for (uint64_t sure = chain->sure; sure != 0;) {
        unsigned i = highest(sure);
        if (has_seen(e, c->marks[i].site, c->marks[i].seq)) return chain->sets & -(UINT64_C(2) << i);
        sure ^= UINT64_C(1) << i;
    }
    return chain->sets;
}

/* Puts the Set e behind the others as number k; gives those that it conflicts with. */
static inline uint64_t chains_add(struct chains *c, unsigned k, const struct edit *e) {
    uint32_t value = shown_value(e);
    uint64_t conflicts = 0, unseen = 0, bit = UINT64_C(1) << k;
    struct chain *chain = &c->of[e->key];
    c->marks[k] = (struct mark){value, e->seq, e->site};
    if ((c->keys >> e->key & 1) == 0) {
        c->keys |= 1u << e->key;
        chain->sets = chain->sure = bit;
        return 0;
    }
    for (uint64_t left = chains_unsure(c, e); left != 0; left &= left - 1) {
        const struct mark *m = &c->marks[lowest(left)];
        if (has_seen(e, m->site, m->seq)) continue;
        unseen |= left & -left;
        if (m->value != value) conflicts |= left & -left;
    }
    chain->sets |= bit;
    if (unseen == 0) chain->sure |= bit;
    return conflicts;
}

#endif
