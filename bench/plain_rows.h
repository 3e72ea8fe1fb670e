/* The step on the groups of an object: as it is defined on all sound rows, and on the true ones that come of taking
   records into an empty drawing. */
#ifndef PLAIN_ROWS_H
#define PLAIN_ROWS_H

#include "plain_index.h"

/* The step for Set k with these conflicts on a sound row of n groups; says how many there are then. Where they are
   more than a row holds, the row stays. */
unsigned row_step(uint64_t *row, unsigned n, uint64_t conflicts, unsigned k);

/* The true rows of a drawing that grows. The Sets that had no conflict when they came are in all groups of their
   object, and are put into them together: before a step that has conflicts, and at the end. */
struct rows {
    uint64_t *groups; /* 64 rows; only the groups that there are have been written */
    uint8_t many[OBJECTS];
    uint64_t common[OBJECTS]; /* the Sets that are not yet in the object's groups */
};

static inline void rows_create(struct rows *w, unsigned o) {
    w->groups[o * GROUPS] = 0;
    w->many[o] = 1;
    w->common[o] = 0;
}

/* The step for Set k with conflicts; says whether the row has place for what it gives. */
int rows_split(struct rows *w, unsigned o, uint64_t conflicts, unsigned k);

/* The step for any Set. One without conflict drops nothing: no group of a true row is part of another. */
static inline int rows_step(struct rows *w, unsigned o, uint64_t conflicts, unsigned k) {
    if (conflicts != 0) return rows_split(w, o, conflicts, k);
    w->common[o] |= UINT64_C(1) << k;
    return 1;
}

#endif
