/* Edits and records as the tables and files lay them out, and what the plain calls ask of one by itself. */
#ifndef PLAIN_EDIT_H
#define PLAIN_EDIT_H

#include <stddef.h>
#include <string.h>

#include "spireslate.h"

enum { CREATE = SPIRESLATE_CREATE, SET = SPIRESLATE_SET, LIMITED = SPIRESLATE_LIMITED };
enum { TOP = SPIRESLATE_TOP, BOTTOM = SPIRESLATE_BOTTOM };
enum { RECORDS = 256, OBJECTS = 64, SETS = 64, GROUPS = 32, KEYS = 16, ENTRY = 3, MEMBERS = SPIRESLATE_MEMBERS };
enum { SITES = SPIRESLATE_SITES, SQUARE = 8, SQUARE_KEYS = 2 };

/* An edit is read where its bytes stand, which may be anywhere: so its fields are of no alignment. */
#define IN_PLACE __attribute__((packed, may_alias))

struct edit {
    uint8_t kind, site;
    uint16_t seq;
    uint16_t vector[SITES];
    uint8_t tsite, key;
    uint16_t tseq;
    uint32_t value;
} IN_PLACE;

/* A record as its place has it: an edit, and behind it what a limited Set lists. The rest counts for nothing. */
struct record {
    struct edit edit;
    uint16_t count, zeros;
    struct member {
        uint8_t site, zero;
        uint16_t seq;
    } IN_PLACE members[MEMBERS];
} IN_PLACE;

_Static_assert(sizeof(struct edit) == SPIRESLATE_RECORD, "an edit is laid out as its record");
_Static_assert(offsetof(struct record, members) == SPIRESLATE_LIMITED_RECORD, "so is what a limited Set lists");
_Static_assert(sizeof(struct record) == SPIRESLATE_PLACE, "a record is laid out as its place");
#if __BYTE_ORDER__ != __ORDER_LITTLE_ENDIAN__
#error "records are little-endian, and are read as they are"
#endif

static inline int is_layer(unsigned kind) { return kind == TOP || kind == BOTTOM; }
static inline int is_set(unsigned kind) { return kind == SET || kind == LIMITED; }

/* An edit's value as it is compared and shown: for keys 0 and 1 the multiple of 8 below it. */
static inline uint32_t shown_value(const struct edit *e) {
    return e->key < SQUARE_KEYS ? e->value / SQUARE * SQUARE : e->value;
}

static inline int has_seen(const struct edit *e, unsigned site, unsigned seq) { return e->vector[site] >= seq; }

static inline uint64_t word_at(const void *bytes, size_t at) {
    uint64_t word;
    memcpy(&word, (const uint8_t *)bytes + at, sizeof word);
    return word;
}

static inline uint32_t half_at(const void *bytes, size_t at) {
    uint32_t half;
    memcpy(&half, (const uint8_t *)bytes + at, sizeof half);
    return half;
}

/* Whether so many bytes are zero; they are looked at 64 at a time, by a processor's whole registers. */
int are_zero(const void *bytes, size_t n);

/* A vector is compared and added up in words of four entries. Those of an edit that is held, and of one that nothing
   is missing for, are below 2^15, so that a bit is free above each. */
enum { LANES = 4, LANE = 16, WORDS = SITES / LANES };
#define LANE_ONES UINT64_C(0x0001000100010001)
#define LANE_TOPS (LANE_ONES << (LANE - 1))

static inline uint64_t vector_word(const struct edit *e, unsigned w) {
    return word_at(e, offsetof(struct edit, vector) + w * sizeof(uint64_t));
}

/* The target and the value, which are all zero in a Create. */
static inline uint64_t tail_word(const struct edit *e) { return word_at(e, offsetof(struct edit, tsite)); }

/* The top bit of each lane says whether the entry of a is at least that of b. */
static inline uint64_t lanes_at_least(uint64_t a, uint64_t b) { return (a | LANE_TOPS) - b; }

/* Vector sum, then site: smaller first. The entries of an edit held add up to the records held at most. */
static inline uint32_t rank_of(const struct edit *e) {
    uint64_t sum = 0;
    for (unsigned w = 0; w < WORDS; w++) sum += vector_word(e, w);
    return (uint32_t)(sum * LANE_ONES >> (LANES - 1) * LANE) << 8 | e->site;
}

/* The bytes of a record by its kind and, where it is a limited Set, its count, which may be any. */
static inline size_t record_bytes(const struct record *r) {
    return r->edit.kind == LIMITED ? SPIRESLATE_LIMITED_RECORD + r->count * (size_t)SPIRESLATE_MEMBER
                                   : SPIRESLATE_RECORD;
}

/* The same of the record at the front of so many bytes; 0 where it has more. */
static inline size_t stored_bytes(const uint8_t *stretch, size_t length) {
    size_t least = length != 0 && *stretch == LIMITED ? SPIRESLATE_LIMITED_RECORD : SPIRESLATE_RECORD;
    if (length < least) return 0;
    size_t bytes = record_bytes((const struct record *)stretch);
    return bytes <= length ? bytes : 0;
}

/* The three tables are of their lengths. */
static inline int lengths_right(size_t records, size_t objects, size_t groups) {
    return records == SPIRESLATE_RECORDS_LENGTH && objects == SPIRESLATE_OBJECTS_LENGTH &&
           groups == SPIRESLATE_GROUPS_LENGTH;
}

#endif
