/* The index of records, the answers to what an edit has seen, and the soundness of tables: each record is looked at
   once, and whatever a later test asks of it is then found by its number. */
#include "plain_index.h"

#include <string.h>

#include "plain_judge.h"

void index_open(struct index *x, const uint8_t *records, unsigned sites) {
    x->records = records;
    x->sites = sites;
    x->count = x->objects = x->tops = 0;
    x->heads = x->lists = 0;
    x->vectors = x->tails = x->limited = 0;
    x->list_bytes = 0;
    memset(x->held, 0, sizeof x->held);
    memset(x->next, 0, sites * sizeof *x->next);
    for (unsigned s = 0; s < sites; s++) x->next[s][s / LANES] = UINT64_C(1) << s % LANES * LANE;
}

int is_list_unfit(const struct record *r) {
    unsigned wrong = r->zeros;
    if (r->count > MEMBERS) return 1;
    for (unsigned i = 0; i < r->count; i++) {
        const struct member *m = &r->members[i];
        wrong |= m->zero;
        if (i > 0 && (m->site < m[-1].site || (m->site == m[-1].site && m->seq <= m[-1].seq))) return 1;
    }
    return wrong != 0;
}

/* Whether e has seen what a has seen, an edit that is held. Takes from the new entries of e those that a has as well:
   a passed, so that they can no more tear e than a does. */
static inline int meet(uint64_t *news, const struct edit *a, const struct edit *e) {
    uint64_t least = LANE_TOPS;
    for (unsigned w = 0; w < WORDS; w++) {
        uint64_t word = vector_word(e, w), other = word ^ vector_word(a, w);
        if (other == 0) {
            news[w] = 0;
            continue;
        }
        least &= lanes_at_least(word, vector_word(a, w));
        news[w] &= ((((other & ~LANE_TOPS) + ~LANE_TOPS) | other) & LANE_TOPS) / (1 << (LANE - 1)) * 0xFFFF;
    }
    return least == LANE_TOPS;
}

/* Whether e has all that its author's latest edit had. */
static int keeps_own(const struct index *x, const struct edit *e) {
    uint64_t least = LANE_TOPS;
    for (unsigned w = 0; w < WORDS; w++) least &= lanes_at_least(vector_word(e, w), x->next[e->site][w]);
    return least == LANE_TOPS;
}

/* The answer to a new entry, as a bit; 0 for none. */
static inline unsigned judge_entry(const struct index *x, const struct edit *e, unsigned s, uint64_t *news) {
    unsigned seen = e->vector[s];
    if (s >= x->sites) return 1u << SPIRESLATE_MALFORMED;
    if (s == e->site || seen == 0) return 0;
    if (seen > x->held[s]) return 1u << SPIRESLATE_EARLY;
    return meet(news, edit_at(x, place_of(x, s, seen)), e) ? 0 : 1u << SPIRESLATE_TORN;
}

/* The same of all new entries of other sites. */
static unsigned judge_entries(const struct index *x, const struct edit *e, uint64_t *news) {
    unsigned found = 0;
    for (unsigned w = 0; w < WORDS; w++) {
        while (news[w] != 0) {
            unsigned lane = lowest(news[w]) / LANE;
            news[w] &= ~(UINT64_C(0xFFFF) << lane * LANE);
            found |= judge_entry(x, e, w * LANES + lane, news);
        }
    }
    return found;
}

/* The edits held have seen what those that they had seen had seen, so the latest edit of each site that e has seen
   answers for the earlier ones; and the record before e, where e has seen that, often for all. */
unsigned index_judge_news(const struct index *x, const struct edit *e, uint64_t *news) {
    unsigned found = 0, own = x->held[e->site], kept = own == 0;
    if (e->seq != own + 1) found |= 1u << (e->seq <= own ? SPIRESLATE_REPEATED : SPIRESLATE_EARLY);
    if (x->count != 0) {
        const struct edit *before = edit_at(x, x->count - 1);
        if (before->site != e->site && has_seen(e, before->site, before->seq)) {
            if (!meet(news, before, e)) found |= 1u << SPIRESLATE_TORN;
            kept |= has_seen(before, e->site, own);
        }
    }
    if (!kept && !keeps_own(x, e)) found |= 1u << SPIRESLATE_TORN;
    found |= judge_entries(x, e, news);
    return found == 0 ? SPIRESLATE_DONE : lowest(found);
}

typedef uint64_t pair __attribute__((vector_size(16), may_alias));
typedef pair loose_pair __attribute__((aligned(1)));

/* From the first 16 bytes on that are aligned as a processor wants it. */
static uint64_t gather_blocks(const uint8_t *at, size_t n) {
    enum { BLOCK = 4 * sizeof(pair) };
    pair all = *(const loose_pair *)at, more = {0};
    size_t skipped = -(uintptr_t)at % sizeof(pair);
    for (at += skipped, n -= skipped; n >= BLOCK; n -= BLOCK, at += BLOCK) {
        const pair *p = (const pair *)at;
        all |= p[0] | p[1];
        more |= p[2] | p[3];
    }
    for (; n >= sizeof(pair); n -= sizeof(pair), at += sizeof(pair)) all |= *(const pair *)at;
    all |= more;
    uint64_t any = all[0] | all[1];
    for (; n != 0; n--) any |= *at++;
    return any;
}

int are_zero(const void *bytes, size_t n) {
    const uint8_t *at = bytes;
    uint64_t any = 0;
    if (n >= sizeof(pair)) return gather_blocks(at, n) == 0;
    for (; n != 0; n--) any |= *at++;
    return any == 0;
}

int is_rest_zero(const struct record *r) {
    enum { BEHIND = SPIRESLATE_RECORD + sizeof(uint32_t) };
    const uint8_t *place = (const uint8_t *)r;
    if (r->edit.kind == LIMITED) return are_zero(place + record_bytes(r), SPIRESLATE_PLACE - record_bytes(r));
    const loose_pair *p = (const loose_pair *)(place + BEHIND);
    pair rest = (p[0] | p[1]) | (p[2] | p[3]);
    return (rest[0] | rest[1] | half_at(place, SPIRESLATE_RECORD)) == 0;
}

int are_tables_zero(const uint8_t *records, const uint16_t *objects, const uint64_t *groups, unsigned held,
                    unsigned made) {
    size_t used = held * SPIRESLATE_PLACE, entries = made * ENTRY, rows = made * GROUPS;
    return are_zero(records + used, SPIRESLATE_RECORDS_LENGTH - used) &&
           are_zero(objects + entries, (SPIRESLATE_OBJECTS_LENGTH - entries) * sizeof *objects) &&
           are_zero(groups + rows, (SPIRESLATE_GROUPS_LENGTH - rows) * sizeof *groups);
}

/* Whether the row of an object with so many Sets and groups is sound. The groups ascend, so that the last one is the
   one that may have a bit too high. */
static int is_row_sound(const uint64_t *row, unsigned sets, unsigned many) {
    if (many < 1 || many > GROUPS) return 0;
    if (sets < SETS && row[many - 1] >> sets != 0) return 0;
    for (unsigned i = 1; i < many; i++)
        if (row[i] <= row[i - 1]) return 0;
    return is_row_ended(row, many);
}

/* Whether the records pass 1 to 5 and 16 in turn, each in a place that is zero behind it, with the table's objects in
   the order of their Creates and no Set more than an object may have. */
static int walk(struct index *x, unsigned n, const uint16_t *objects, unsigned most) {
    for (unsigned i = 0; i < n; i++) {
        const struct record *r = record_at(x, i);
        unsigned o;
        if (judge(x, r, &o) != SPIRESLATE_DONE || !is_rest_zero(r)) return 0;
        if (r->edit.kind == CREATE && (o == most || objects[o * ENTRY] != i)) return 0;
        if (is_set(r->edit.kind) && x->sets[o] == SETS) return 0;
        index_add(x, r, o);
    }
    return x->objects == most;
}

int index_sound(struct index *x, const struct spireslate_counters *c, const uint8_t *records,
                const uint16_t *objects, const uint64_t *groups) {
    if (c->sites < 1 || c->sites > SITES || c->records > RECORDS || c->objects > OBJECTS) return 0;
    index_open(x, records, c->sites);
    if (!walk(x, c->records, objects, c->objects)) return 0;
    if (memcmp(x->held, c->held, sizeof x->held) != 0 || index_sum(x) != c->sum) return 0;
    for (unsigned o = 0; o < x->objects; o++) {
        const uint16_t *entry = objects + o * ENTRY;
        if (entry[1] != x->sets[o] || !is_row_sound(groups + o * GROUPS, entry[1], entry[2])) return 0;
    }
    return are_tables_zero(records, objects, groups, x->count, x->objects);
}
