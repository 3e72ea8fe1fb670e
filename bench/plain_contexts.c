/* The contexts of limited Sets, and the conflicts that they bring, by masks. An object that a limited Set was judged
   for has its Sets chained, and their ties in the index. Other objects have none. */
#include "plain_index.h"

/* The Sets of an object that an edit has seen, and those of them that another of them conflicts with by document 01's
   rule. */
struct sight {
    uint64_t seen, disputed;
};

/* What e has seen of the Sets of object o before number k: with each Set that is seen, what that had seen. The
   disputes of the last one that is seen are known; those of the others with any are looked up. */
static struct sight look_back(const struct index *x, unsigned o, unsigned k, const struct edit *e) {
    struct sight s = {0, 0};
    uint64_t others = 0, left = k == SETS ? UINT64_MAX : (UINT64_C(1) << k) - 1;
    while (left != 0) {
        unsigned i = highest(left);
        const struct mark *m = &x->chains[o].marks[i];
        uint64_t known = UINT64_C(1) << i;
        if (has_seen(e, m->site, m->seq)) {
            known |= x->ties[o][i].seen;
            if (s.seen == 0) s.disputed = x->ties[o][i].disputed, others = UINT64_C(1) << i;
            else others |= known & ~s.seen;
            s.seen |= known;
        }
        left &= ~known;
    }
    for (; others != 0; others &= others - 1) {
        uint64_t foes = x->ties[o][lowest(others)].foes & s.seen;
        if (foes != 0) s.disputed |= foes | (others & -others);
    }
    return s;
}

/* Puts the Set e with its context behind the others of object o, as number k. */
static void tie(struct index *x, unsigned o, unsigned k, const struct edit *e, struct sight s, uint64_t context) {
    uint64_t bit = UINT64_C(1) << k, conflicts = chains_add(&x->chains[o], k, e);
    x->ties[o][k] = (struct ties){s.seen, s.disputed, conflicts, context | bit, bit};
    if (context != 0) x->contexts[o] |= bit;
    for (; conflicts != 0; conflicts &= conflicts - 1) x->ties[o][lowest(conflicts)].foes |= bit;
    for (; context != 0; context &= context - 1) x->ties[o][lowest(context)].holders |= bit;
}

static void tie_all(struct index *x, unsigned o) {
    x->limited |= UINT64_C(1) << o;
    x->contexts[o] = 0;
    chains_open(&x->chains[o]);
    for (unsigned k = 0; k < x->sets[o]; k++) {
        const struct edit *e = set_at(x, o, k);
        tie(x, o, k, e, look_back(x, o, k, e), 0);
    }
}

/* The bit of the Set of object o with this name; 0 where there is none. The places of an object's Sets ascend. */
static uint64_t bit_of(const struct index *x, unsigned o, const struct member *m) {
    if (m->site >= x->sites || m->seq == 0 || m->seq > x->held[m->site]) return 0;
    unsigned place = place_of(x, m->site, m->seq), low = 0, high = x->sets[o];
    while (low < high) {
        unsigned middle = (low + high) / 2;
        if (x->set[o][middle] < place) low = middle + 1;
        else high = middle;
    }
    return low < x->sets[o] && x->set[o][low] == place ? UINT64_C(1) << low : 0;
}

/* The Sets that have one of these in their reach. */
static uint64_t holders_of(const struct index *x, unsigned o, uint64_t sets) {
    uint64_t holders = 0;
    for (; sets != 0; sets &= sets - 1) holders |= x->ties[o][lowest(sets)].holders;
    return holders;
}

/* The version that a limited Set names among the Sets that it has seen; whether there is one. What it lists tells
   which: it has the Sets whose reach holds nothing in dispute but what is listed, and it is one if what is listed is
   in dispute and in it, has no conflict inside, and each other Set has one with it. */
static int find_context(const struct index *x, unsigned o, const struct record *r, struct sight s, uint64_t *context) {
    uint64_t listed = 0, foes = 0;
    for (unsigned i = 0; i < r->count; i++) {
        uint64_t bit = bit_of(x, o, &r->members[i]) & s.disputed;
        if (bit == 0) return 0;
        listed |= bit;
        foes |= x->ties[o][lowest(bit)].foes;
    }
    uint64_t unlisted = s.disputed & ~listed, held = s.seen & ~unlisted;
    for (uint64_t left = held & x->contexts[o]; left != 0; left &= left - 1)
        if ((x->ties[o][lowest(left)].reach & unlisted) != 0) held &= ~(left & -left);
    *context = held;
    return (listed & (foes | ~held)) == 0 && (s.seen & ~held & ~holders_of(x, o, foes & s.seen)) == 0;
}

unsigned index_context(struct index *x, unsigned o, const struct record *r) {
    unsigned k = x->sets[o];
    uint64_t context = 0;
    if (!has_limited(x, o)) tie_all(x, o);
    struct sight s = look_back(x, o, k, &r->edit);
    if (r->edit.kind == LIMITED && !find_context(x, o, r, s, &context)) return SPIRESLATE_NO_VERSION;
    if (k < SETS) tie(x, o, k, &r->edit, s, context);
    return SPIRESLATE_DONE;
}

uint64_t index_limited_conflicts(const struct index *x, unsigned o, unsigned k) {
    uint64_t foes = 0, before = (UINT64_C(1) << k) - 1;
    for (uint64_t left = x->ties[o][k].reach; left != 0; left &= left - 1) foes |= x->ties[o][lowest(left)].foes;
    return holders_of(x, o, foes) & before;
}
