/* The judging of a record and its taking into an index: what is done once for each record, and so stands where the
   loops over records can take it in. */
#ifndef PLAIN_JUDGE_H
#define PLAIN_JUDGE_H

#include "plain_index.h"

/* Answer 1 to what a limited Set lists. */
int is_list_unfit(const struct record *r);

/* Answer 1 to a record of its own length, but for the vector's entries at or past N. */
static inline int is_unfit(unsigned sites, const struct record *r) {
    const struct edit *e = &r->edit;
    if (e->site >= sites || e->seq == 0 || e->vector[e->site] != e->seq) return 1;
    if (e->kind == SET) return e->key >= KEYS || e->tseq == 0;
    if (e->kind == CREATE) return tail_word(e) != 0;
    if (e->kind == LIMITED) return e->key >= KEYS || e->tseq == 0 || is_list_unfit(r);
    return !is_layer(e->kind) || e->tseq == 0 || e->key != 0 || e->value != 0;
}

/* Answers 1 to 4 by the vector. The author's latest edit passed: so only those entries need a look that are not as in
   the edit that comes next if its author has seen nothing new. */
static inline unsigned judge_vector(const struct index *x, const struct edit *e) {
    uint64_t news[WORDS], any = 0;
    for (unsigned w = 0; w < WORDS; w++) any |= news[w] = vector_word(e, w) ^ x->next[e->site][w];
    return any == 0 ? SPIRESLATE_DONE : index_judge_news(x, e, news);
}

/* The object that a Set or a layer edit has as its target; OBJECTS where answer 5 is due. It has not seen itself. */
static inline unsigned target_of(const struct index *x, const struct edit *e) {
    if (e->tsite >= x->sites || e->tseq > e->vector[e->tsite] - (e->tsite == e->site)) return OBJECTS;
    return object_of(x, e->tsite, e->tseq);
}

/* Answers 1 to 5 and 16 to a record after those of the index, or 0; then its object, that of a Create being new. */
static inline unsigned judge(struct index *x, const struct record *r, unsigned *object) {
    const struct edit *e = &r->edit;
    if (is_unfit(x->sites, r)) return SPIRESLATE_MALFORMED;
    unsigned answer = judge_vector(x, e);
    if (answer != SPIRESLATE_DONE) return answer;
    *object = x->objects;
    if (e->kind == CREATE) return SPIRESLATE_DONE;
    unsigned o = *object = target_of(x, e);
    if (o == OBJECTS) return SPIRESLATE_ASTRAY;
    if (e->kind == LIMITED || (e->kind == SET && has_limited(x, o))) return index_context(x, o, r);
    return SPIRESLATE_DONE;
}

/* Takes the record of object o that was judged last, and that none of 1 to 6 and 16 is given to, into the index. The
   entries of its vector add up to the records held at most, so that the low halves of the words that are added up here
   never carry into the high ones. */
static inline void index_add(struct index *x, const struct record *r, unsigned o) {
    const struct edit *e = &r->edit;
    unsigned place = x->count++, site = e->site, made = 0;
    uint64_t sum = 0;
    for (unsigned w = 0; w < WORDS; w++) {
        sum += vector_word(e, w);
        x->next[site][w] = vector_word(e, w);
    }
    x->vectors += sum;
    x->next[site][site / LANES] += UINT64_C(1) << site % LANES * LANE;
    x->heads += half_at(e, 0);
    x->tails += tail_word(e);
    x->held[site] = e->seq;
    if (is_set(e->kind)) {
        x->set[o][x->sets[o]++] = (uint8_t)place;
    } else if (e->kind == CREATE) {
        x->objects++;
        x->sets[o] = 0;
        made = (o + 1) * MADE;
    } else if (e->kind == TOP) {
        x->top[x->tops++] = (uint8_t)place;
    }
    x->where[site][e->seq] = (uint16_t)(place | made);
    if (e->kind != LIMITED) return;
    x->list_bytes += record_bytes(r) - SPIRESLATE_RECORD;
    for (size_t at = SPIRESLATE_RECORD; at < record_bytes(r); at += sizeof(uint32_t)) x->lists += half_at(r, at);
}

#endif
