/* The plain calls that open, take, read, check and write: the documents' rules on an index of the records. Reading a
   file or checking tables takes the records one after another into an empty drawing, whose soundness needs no test. */
#include "plain.h"

#include <stddef.h>
#include <string.h>

#include "plain_judge.h"
#include "plain_rows.h"

static void open_tables(struct spireslate_counters *c, uint8_t *records, uint16_t *objects, uint64_t *groups,
                        uint8_t n) {
    *c = (struct spireslate_counters){.sites = n};
    memset(records, 0, SPIRESLATE_RECORDS_LENGTH);
    memset(objects, 0, SPIRESLATE_OBJECTS_LENGTH * sizeof *objects);
    memset(groups, 0, SPIRESLATE_GROUPS_LENGTH * sizeof *groups);
}

uint8_t plain_open(struct spireslate_counters *counters, uint8_t *records, size_t records_length, uint16_t *objects,
                   size_t objects_length, uint64_t *groups, size_t groups_length, uint8_t n) {
    if (!lengths_right(records_length, objects_length, groups_length)) return SPIRESLATE_UNSOUND;
    if (n < 1 || n > SITES) return SPIRESLATE_BAD_SITES;
    open_tables(counters, records, objects, groups, n);
    return SPIRESLATE_DONE;
}

static void put_counters(struct spireslate_counters *c, const struct index *x) {
    c->sites = (uint8_t)x->sites;
    c->records = (uint16_t)x->count;
    c->objects = (uint16_t)x->objects;
    memcpy(c->held, x->held, sizeof c->held);
    c->sum = index_sum(x);
}

/* The Sets of object o that conflict with e, which arrives and was judged. */
static uint64_t arriving_conflicts(const struct index *x, unsigned o, const struct edit *e) {
    uint64_t conflicts = 0;
    if (has_limited(x, o)) return index_limited_conflicts(x, o, x->sets[o]);
    for (unsigned k = 0; k < x->sets[o]; k++) {
        const struct edit *a = set_at(x, o, k);
        if (a->key == e->key && !has_seen(e, a->site, a->seq) && shown_value(a) != shown_value(e))
            conflicts |= UINT64_C(1) << k;
    }
    return conflicts;
}

/* Judges a record that arrives, and takes it into index and tables where it is not refused. */
static unsigned arrive(struct index *x, uint8_t *records, uint16_t *objects, uint64_t *groups,
                       const struct record *r) {
    unsigned o, place = x->count, answer = judge(x, r, &o);
    if (answer != SPIRESLATE_DONE) return answer;
    if (place == RECORDS || o == OBJECTS) return SPIRESLATE_FULL;
    uint16_t *entry = objects + o * ENTRY;
    if (r->edit.kind == CREATE) {
        entry[0] = (uint16_t)place;
        entry[2] = 1;
    } else if (is_set(r->edit.kind)) {
        unsigned k = x->sets[o];
        if (k == SETS) return SPIRESLATE_FULL;
        unsigned many = row_step(groups + o * GROUPS, entry[2], arriving_conflicts(x, o, &r->edit), k);
        if (many > GROUPS) return SPIRESLATE_CROWDED;
        entry[1]++;
        entry[2] = (uint16_t)many;
    }
    memcpy(records + place * SPIRESLATE_PLACE, r, record_bytes(r));
    index_add(x, r, o);
    return SPIRESLATE_DONE;
}

uint8_t plain_arrive(struct spireslate_counters *counters, uint8_t *records, size_t records_length,
                     uint16_t *objects, size_t objects_length, uint64_t *groups, size_t groups_length,
                     const uint8_t *record, size_t record_length) {
    struct index x;
    if (!lengths_right(records_length, objects_length, groups_length)) return SPIRESLATE_UNSOUND;
    if (!index_sound(&x, counters, records, objects, groups)) return SPIRESLATE_UNSOUND;
    if (record_length == 0 || stored_bytes(record, record_length) != record_length) return SPIRESLATE_MALFORMED;
    unsigned answer = arrive(&x, records, objects, groups, (const struct record *)record);
    if (answer == SPIRESLATE_DONE) put_counters(counters, &x);
    return (uint8_t)answer;
}

/* Judges the next record of a drawing that grows from an empty one, and takes it in where it is not refused. */
static inline unsigned take(struct index *x, struct rows *w, const struct record *r) {
    const struct edit *e = &r->edit;
    unsigned o, answer = judge(x, r, &o);
    if (answer != SPIRESLATE_DONE) return answer;
    if (e->kind == CREATE) {
        if (o == OBJECTS) return SPIRESLATE_FULL;
        rows_create(w, o);
        chains_open(&x->chains[o]);
    } else if (is_set(e->kind)) {
        unsigned k = x->sets[o];
        if (k == SETS) return SPIRESLATE_FULL;
        uint64_t conflicts =
            has_limited(x, o) ? index_limited_conflicts(x, o, k) : chains_add(&x->chains[o], k, e);
        if (!rows_step(w, o, conflicts, k)) return SPIRESLATE_CROWDED;
    }
    index_add(x, r, o);
    return SPIRESLATE_DONE;
}

enum { OLD = SPIRESLATE_OLD_FORM, LONG = SPIRESLATE_LONG_FORM };

struct trailer {
    uint16_t records;
    uint8_t sites, form;
    uint32_t distance;
};

/* Whether so many long records, each by its own bytes, fill the stretch. */
static int is_filled(const uint8_t *stretch, const uint8_t *end, unsigned n) {
    for (; n != 0; n--) {
        size_t bytes = stored_bytes(stretch, (size_t)(end - stretch));
        if (bytes == 0) return 0;
        stretch += bytes;
    }
    return stretch == end;
}

/* Answers 10 and 9 to a file, or 0; then its trailer, and where its records start. */
static unsigned locate(struct trailer *t, const uint8_t **start, const uint8_t *file, size_t length) {
    if (length > SPIRESLATE_FILE_LIMIT || length < SPIRESLATE_TRAILER) return SPIRESLATE_BAD_FILE;
    size_t at = length - SPIRESLATE_TRAILER;
    memcpy(t, file + at, sizeof *t);
    if (t->records > RECORDS || t->form > LONG || t->distance > at) return SPIRESLATE_BAD_FILE;
    *start = file + at - t->distance;
    if (t->form == OLD ? t->distance != t->records * (uint32_t)SPIRESLATE_OLD_RECORD
                       : !is_filled(*start, file + at, t->records))
        return SPIRESLATE_BAD_FILE;
    unsigned most = t->form == OLD ? SPIRESLATE_OLD_SITES : SITES;
    return t->sites < 1 || t->sites > most ? SPIRESLATE_BAD_SITES : SPIRESLATE_DONE;
}

/* Takes n long records, and puts each into its place; says the answer to the first refused, and its index. */
static struct spireslate_file_answer take_long(struct index *x, struct rows *w, uint8_t *place, const uint8_t *at,
                                               unsigned n) {
    for (unsigned i = 0; i < n; i++, place += SPIRESLATE_PLACE) {
        const struct record *r = (const struct record *)at;
        size_t bytes = record_bytes(r);
        unsigned answer = take(x, w, r);
        if (answer != SPIRESLATE_DONE) return (struct spireslate_file_answer){(uint8_t)answer, i};
        memcpy(place, at, SPIRESLATE_RECORD);
        memset(place + SPIRESLATE_RECORD, 0, SPIRESLATE_PLACE - SPIRESLATE_RECORD);
        if (bytes != SPIRESLATE_RECORD)
            memcpy(place + SPIRESLATE_RECORD, at + SPIRESLATE_RECORD, bytes - SPIRESLATE_RECORD);
        at += bytes;
    }
    return (struct spireslate_file_answer){SPIRESLATE_DONE, 0};
}

/* The same of n old records. As long ones they have seen nothing of the sites that they have no entry for. All are put
   into their places first: a processor would wait for what it has only just written. */
static struct spireslate_file_answer take_old(struct index *x, struct rows *w, uint8_t *place, const uint8_t *at,
                                              unsigned n) {
    enum { FRONT = offsetof(struct edit, vector[SPIRESLATE_OLD_SITES]), TAIL = offsetof(struct edit, tsite) };
    for (unsigned i = 0; i < n; i++, place += SPIRESLATE_PLACE, at += SPIRESLATE_OLD_RECORD) {
        memset(place + FRONT, 0, SPIRESLATE_PLACE - FRONT);
        memcpy(place, at, FRONT);
        memcpy(place + TAIL, at + FRONT, SPIRESLATE_OLD_RECORD - FRONT);
    }
    for (unsigned i = 0; i < n; i++) {
        const struct record *r = record_at(x, i);
        unsigned answer = SPIRESLATE_MALFORMED;
        if (r->edit.kind == CREATE || r->edit.kind == SET) answer = take(x, w, r);
        if (answer != SPIRESLATE_DONE) return (struct spireslate_file_answer){(uint8_t)answer, i};
    }
    return (struct spireslate_file_answer){SPIRESLATE_DONE, 0};
}

/* Clears the rest of a table. It is most often clear already, and the look saves an emulator a long memset, which is
   many times slower there; a processor may well be faster without the look. */
static void clear(void *rest, size_t n) {
    if (!are_zero(rest, n)) memset(rest, 0, n);
}

/* Ends the tables of a drawing that was read: the objects, what is not yet in their groups, and zeros behind. */
static void close_tables(const struct index *x, const struct rows *w, uint8_t *records, uint16_t *objects) {
    size_t used = x->count * SPIRESLATE_PLACE, entries = x->objects * ENTRY, rows = x->objects * GROUPS;
    for (unsigned i = 0; i < x->count; i++)
        if (edit_at(x, i)->kind == CREATE) *objects = (uint16_t)i, objects += ENTRY;
    objects -= entries;
    for (unsigned o = 0; o < x->objects; o++) {
        uint64_t *row = w->groups + o * GROUPS;
        objects[o * ENTRY + 1] = x->sets[o];
        objects[o * ENTRY + 2] = w->many[o];
        for (unsigned i = 0; i < w->many[o]; i++) row[i] |= w->common[o];
        clear(row + w->many[o], (GROUPS - w->many[o]) * sizeof *row);
    }
    clear(records + used, SPIRESLATE_RECORDS_LENGTH - used);
    clear(objects + entries, (SPIRESLATE_OBJECTS_LENGTH - entries) * sizeof *objects);
    clear(w->groups + rows, (SPIRESLATE_GROUPS_LENGTH - rows) * sizeof *w->groups);
}

struct spireslate_file_answer plain_read(struct spireslate_counters *counters, uint8_t *records,
                                         size_t records_length, uint16_t *objects, size_t objects_length,
                                         uint64_t *groups, size_t groups_length, const uint8_t *file,
                                         size_t file_length) {
    struct index x;
    struct rows w;
    struct trailer t;
    const uint8_t *start;
    if (!lengths_right(records_length, objects_length, groups_length))
        return (struct spireslate_file_answer){SPIRESLATE_UNSOUND, 0};
    unsigned located = locate(&t, &start, file, file_length);
    if (located != SPIRESLATE_DONE) return (struct spireslate_file_answer){(uint8_t)located, 0};
    index_open(&x, records, t.sites);
    w.groups = groups;
    struct spireslate_file_answer answer =
        t.form == OLD ? take_old(&x, &w, records, start, t.records) : take_long(&x, &w, records, start, t.records);
    if (answer.number == SPIRESLATE_DONE) {
        close_tables(&x, &w, records, objects);
        put_counters(counters, &x);
    } else {
        open_tables(counters, records, objects, groups, t.sites);
    }
    return answer;
}

/* Whether the row of object o in a table is the one that its records gave. */
static int is_row_given(const uint64_t *row, const struct rows *w, unsigned o) {
    const uint64_t *given = w->groups + o * GROUPS;
    uint64_t other = 0;
    for (unsigned i = 0; i < w->many[o]; i++) other |= row[i] ^ (given[i] | w->common[o]);
    return other == 0 && is_row_ended(row, w->many[o]);
}

uint8_t plain_check(struct spireslate_counters counters, const uint8_t *records, size_t records_length,
                    const uint16_t *objects, size_t objects_length, const uint64_t *groups, size_t groups_length) {
    struct index x;
    uint64_t given[SPIRESLATE_GROUPS_LENGTH];
    struct rows w;
    if (!lengths_right(records_length, objects_length, groups_length)) return SPIRESLATE_UNSOUND;
    if (counters.sites < 1 || counters.sites > SITES || counters.records > RECORDS) return SPIRESLATE_UNSOUND;
    index_open(&x, records, counters.sites);
    w.groups = given;
    for (unsigned i = 0; i < counters.records; i++) {
        const struct record *r = record_at(&x, i);
        if (take(&x, &w, r) != SPIRESLATE_DONE || !is_rest_zero(r)) return SPIRESLATE_UNSOUND;
        if (r->edit.kind == CREATE && objects[(x.objects - 1) * ENTRY] != i) return SPIRESLATE_UNSOUND;
    }
    if (counters.objects != x.objects || memcmp(counters.held, x.held, sizeof x.held) != 0 ||
        counters.sum != index_sum(&x))
        return SPIRESLATE_UNSOUND;
    for (unsigned o = 0; o < x.objects; o++)
        if (objects[o * ENTRY + 1] != x.sets[o] || objects[o * ENTRY + 2] != w.many[o] ||
            !is_row_given(groups + o * GROUPS, &w, o))
            return SPIRESLATE_UNSOUND;
    return are_tables_zero(records, objects, groups, x.count, x.objects) ? SPIRESLATE_DONE : SPIRESLATE_UNSOUND;
}

struct spireslate_write_answer plain_write(struct spireslate_counters counters, const uint8_t *records,
                                           size_t records_length, const uint16_t *objects, size_t objects_length,
                                           const uint64_t *groups, size_t groups_length, uint8_t *out,
                                           size_t out_length, size_t start) {
    struct index x;
    if (!lengths_right(records_length, objects_length, groups_length) ||
        !index_sound(&x, &counters, records, objects, groups))
        return (struct spireslate_write_answer){SPIRESLATE_UNSOUND, 0};
    size_t distance = index_bytes(&x), bytes = distance + SPIRESLATE_TRAILER;
    if (start > out_length || bytes > out_length - start)
        return (struct spireslate_write_answer){SPIRESLATE_NO_ROOM, 0};
    struct trailer t = {counters.records, counters.sites, LONG, (uint32_t)distance};
    out += start;
    for (unsigned i = 0; i < x.count; i++) {
        const struct record *r = record_at(&x, i);
        size_t size = record_bytes(r);
        memcpy(out, r, SPIRESLATE_RECORD);
        if (size != SPIRESLATE_RECORD)
            memcpy(out + SPIRESLATE_RECORD, (const uint8_t *)r + SPIRESLATE_RECORD, size - SPIRESLATE_RECORD);
        out += size;
    }
    memcpy(out, &t, sizeof t);
    return (struct spireslate_write_answer){SPIRESLATE_DONE, bytes};
}
