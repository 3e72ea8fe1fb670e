/* What the plain calls know of records that they have walked over once: where each edit stands, what each site had
   seen last, the Sets of each object, and where some of these are limited their contexts. The edits are read in the
   table's places, and only what is filled is ever read: an index is made with no copying and hardly any clearing. */
#ifndef PLAIN_INDEX_H
#define PLAIN_INDEX_H

#include <stddef.h>
#include <string.h>

#include "plain_chains.h"
#include "plain_edit.h"

/* What binds a Set to the others of its object, where some are limited. Conflicts are those of document 01's rule. */
struct ties {
    uint64_t seen;     /* the Sets that it has seen */
    uint64_t disputed; /* those of them that conflict with another of them */
    uint64_t foes;     /* the Sets that it conflicts with */
    uint64_t reach;    /* itself and its context */
    uint64_t holders;  /* the Sets in whose reach it is */
};

struct index {
    const uint8_t *records; /* the table, where the edits held stand */
    unsigned sites, count, objects;
    uint16_t held[SITES];
    uint64_t next[SITES][WORDS];        /* what a site's next edit has seen if the site saw no other's meanwhile */
    uint16_t where[SITES][RECORDS + 1]; /* the place of the edit site.seq; of a Create MADE and its object as well */
    uint8_t sets[OBJECTS];              /* how many Sets the object has */
    uint8_t set[OBJECTS][SETS];         /* and their places, in the order of arrival */
    unsigned tops;                      /* how many to-top edits there are */
    uint8_t top[RECORDS];               /* and their places */
    /* the words of the edits, added up by where they stand; and of what limited Sets list the bytes and the words */
    uint32_t heads, lists;
    uint64_t vectors, tails;
    size_t list_bytes;
    uint64_t limited;                /* the objects for which a limited Set was judged: they have the following */
    uint64_t contexts[OBJECTS];      /* the Sets that have contexts which are not empty */
    struct ties ties[OBJECTS][SETS]; /* of each Set */
    struct chains chains[OBJECTS];   /* which objects of true tables all have */
};

enum { PLACE_BITS = 8, MADE = 1 << PLACE_BITS };

static inline const struct record *record_at(const struct index *x, unsigned place) {
    return (const struct record *)(x->records + place * SPIRESLATE_PLACE);
}

static inline const struct edit *edit_at(const struct index *x, unsigned place) { return &record_at(x, place)->edit; }

static inline unsigned place_of(const struct index *x, unsigned site, unsigned seq) {
    return x->where[site][seq] % MADE;
}

/* The edit of object o's Set number k. */
static inline const struct edit *set_at(const struct index *x, unsigned o, unsigned k) {
    return edit_at(x, x->set[o][k]);
}

/* The object that the Create site.seq made, which is held; OBJECTS where that edit is none. */
static inline unsigned object_of(const struct index *x, unsigned site, unsigned seq) {
    unsigned made = x->where[site][seq] / MADE;
    return made != 0 ? made - 1 : OBJECTS;
}

static inline int has_limited(const struct index *x, unsigned o) { return (x->limited >> o & 1) != 0; }

/* The bytes of all records, and the sum of their words. */
static inline size_t index_bytes(const struct index *x) { return x->count * SPIRESLATE_RECORD + x->list_bytes; }

static inline uint32_t index_sum(const struct index *x) {
    return x->heads + x->lists + (uint32_t)x->vectors + (uint32_t)(x->vectors >> 32) + (uint32_t)x->tails +
           (uint32_t)(x->tails >> 32);
}

/* An empty index of so many sites; the edits will stand in the places of this table. */
void index_open(struct index *x, const uint8_t *records, unsigned sites);

/* Answers 3 and 4, and what of 1 and 2 the vector shows, to an edit in whose vector these entries are new. */
unsigned index_judge_news(const struct index *x, const struct edit *e, uint64_t *news);

/* Puts the next Set of object o with its context behind the others, where a limited Set was judged for the object or
   this one is limited; 16 where it names no version, else 0. */
unsigned index_context(struct index *x, unsigned o, const struct record *r);

/* The Sets of object o before number k, which has limited ones, that conflict with it. */
uint64_t index_limited_conflicts(const struct index *x, unsigned o, unsigned k);

/* Whether the tables, of their lengths, are sound; if so, the index is that of their records. */
int index_sound(struct index *x, const struct spireslate_counters *c, const uint8_t *records,
                const uint16_t *objects, const uint64_t *groups);

/* Whether what is behind the record in its place is zero. */
int is_rest_zero(const struct record *r);

/* Whether the tables are zero behind so many records and objects. */
int are_tables_zero(const uint8_t *records, const uint16_t *objects, const uint64_t *groups, unsigned held,
                    unsigned made);

/* Whether the row of an object with so many groups is zero behind them. */
static inline int is_row_ended(const uint64_t *row, unsigned many) {
    return are_zero(row + many, (GROUPS - many) * sizeof *row);
}

#endif
