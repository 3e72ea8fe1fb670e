/* What the two implementations are compared and timed on: a drawing as a caller keeps it, edits as laptops would make
   them, and the stored files of the benchmark. */
#ifndef INPUTS_H
#define INPUTS_H

#include "spireslate.h"

struct drawing {
    struct spireslate_counters counters;
    uint8_t records[SPIRESLATE_RECORDS_LENGTH];
    uint16_t objects[SPIRESLATE_OBJECTS_LENGTH];
    uint64_t groups[SPIRESLATE_GROUPS_LENGTH];
};

#define TABLES(d)                                                                                                    \
    (d)->records, SPIRESLATE_RECORDS_LENGTH, (d)->objects, SPIRESLATE_OBJECTS_LENGTH, (d)->groups,                   \
        SPIRESLATE_GROUPS_LENGTH

enum { MOST_RECORDS = 256 };

/* A stored file, a long block: records made one after another, in an order in which they may arrive, and behind them a
   trailer. */
struct file {
    const char *name;
    unsigned sites, records;
    uint16_t vectors[SPIRESLATE_SITES][SPIRESLATE_SITES]; /* what each site has applied */
    uint8_t bytes[SPIRESLATE_BLOCK];
    size_t starts[MOST_RECORDS + 1]; /* where each record starts, and where the last one ends */
    size_t length;
};

/* The name of an edit, as a limited Set lists it. */
struct name {
    unsigned site, seq;
};

/* A number below n, of a fixed sequence: every run has the same inputs. */
unsigned random_below(unsigned n);
uint32_t random_value(void);

void file_open(struct file *f, const char *name, unsigned sites);

/* Has a site apply all that another has applied. */
void file_sync(struct file *f, unsigned to, unsigned from);
void file_sync_all(struct file *f);

/* A Create, or a Set or a layer edit on the Create s.q, made by a site and put behind the others; gives its record. */
const uint8_t *file_create(struct file *f, unsigned site);
const uint8_t *file_set(struct file *f, unsigned site, unsigned s, unsigned q, unsigned key, uint32_t value);
const uint8_t *file_layer(struct file *f, unsigned site, unsigned s, unsigned q, int to_top);

/* Makes the Set that was put last one that is limited to the version with these members, so many; gives its record. */
const uint8_t *file_limit(struct file *f, const struct name *members, unsigned count);

/* Puts a record behind the others as it is. */
void file_put(struct file *f, const uint8_t *record);

/* Record i of a file. */
static inline const uint8_t *file_record(const struct file *f, unsigned i) { return f->bytes + f->starts[i]; }

/* The bytes of a record, by its kind and, where it is a limited Set, the count of its members. */
size_t record_length(const uint8_t *record);

/* Puts the trailer behind the records. */
void file_close(struct file *f);

/* Whether the drawing has an old block: eight sites at most, and no kinds but Creates and plain Sets. */
int file_has_old(const struct file *f);

/* The old block of the same drawing, where it has one. */
struct old_file {
    uint8_t bytes[SPIRESLATE_BLOCK];
    size_t length;
};

void file_shorten(struct old_file *old, const struct file *f);

/* 256 records over 64 objects, which have three Sets each, some of them made without sight of another. */
void make_many(struct file *f);      /* of eight sites */
void make_many_wide(struct file *f); /* of sixteen */

/* Half of them: 128 records over 32 objects. */
void make_half_many(struct file *f);
void make_half_many_wide(struct file *f);

/* Four objects of one site, whose Sets take all keys in turn. */
void make_undisputed(struct file *f);      /* 256 records: 63 Sets each */
void make_half_undisputed(struct file *f); /* 128 records: 31 Sets each */

/* 64 objects of sixteen sites, with 64 Sets and 128 layer edits. */
void make_layers(struct file *f);

/* One object of 64 Sets and 32 versions. */
void make_settled(struct file *f);  /* two of eight sites dispute five keys; the other 54 Sets have seen all before */
void make_disputed(struct file *f); /* they do so again and again, so that all 64 Sets are in dispute */
void make_wide(struct file *f);     /* all of sixteen sites dispute one key, and two of them another */

/* The first two filled up to 256 records: with three objects more, whose Sets have seen all before them. */
void make_settled_full(struct file *f);
void make_disputed_full(struct file *f);

/* Drawings of limited Sets. To split a box two sites limit a Set to each of its versions, each without sight of the
   other's: then it has twice as many. */
void make_split(struct file *f);       /* one box that is split five times: 64 limited Sets, 32 versions */
void make_split_boxes(struct file *f); /* eight that are split four times: 31 limited Sets and 16 versions each */
void make_recoloured(struct file *f);  /* 64 boxes of two versions, of which a third site limits a Set to one */

/* One box of 20 Sets, for the engine that works out its groups with no arrival order. */
void make_calm(struct file *f);     /* no conflict, one group */
void make_row(struct file *f);      /* two sites disagree on five keys: 32 groups */
void make_sixteen(struct file *f);  /* sixteen sites disagree on one key: 16 groups */
void make_pairs(struct file *f);    /* two sites disagree on ten keys: 1,024 groups */
void make_hard(struct file *f);     /* more than 32 groups, and of many random ones the longest way to the 33rd */
void make_branches(struct file *f); /* limited Sets split it three times: 8 groups */

/* Sound tables of the file's records, which make one box: its row has the empty group alone, so that they need not be
   true. */
void hold_untrue(struct drawing *d, const struct file *f);

#endif
