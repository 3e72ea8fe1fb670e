/* The comparison: every call is made of both implementations on equal drawings and outputs, and then answers, drawings
   and outputs must be equal. Outputs are never cleared, so that a byte that only one of the two writes shows. */
#include "compare.h"

#include <stdio.h>
#include <stdlib.h>
#include <string.h>

#include "calls.h"
#include "versions.h"

enum { DAMAGES = 64, MARGIN = 64 };

static uint8_t output_a[SPIRESLATE_LIST + MARGIN], output_b[SPIRESLATE_LIST + MARGIN];

static void must(int same, const char *what) {
    if (same) return;
    printf("the two implementations differ: %s\n", what);
    exit(1);
}

int is_same_drawing(const struct drawing *a, const struct drawing *b) {
    const struct spireslate_counters *c = &a->counters, *d = &b->counters;
    return c->sites == d->sites && c->records == d->records && c->objects == d->objects && c->sum == d->sum &&
           memcmp(c->held, d->held, sizeof c->held) == 0 && memcmp(a->records, b->records, sizeof a->records) == 0 &&
           memcmp(a->objects, b->objects, sizeof a->objects) == 0 &&
           memcmp(a->groups, b->groups, sizeof a->groups) == 0;
}

static void must_same(const struct drawing *a, const struct drawing *b, const char *what) {
    must(is_same_drawing(a, b), what);
}

static int must_write(struct spireslate_write_answer a, struct spireslate_write_answer b, size_t length,
                      const char *what) {
    must(a.number == b.number && a.bytes == b.bytes && memcmp(output_a, output_b, length) == 0, what);
    return a.number;
}

static int compare_write(const struct drawing *d, size_t length, size_t start) {
    return must_write(proved.write(d->counters, TABLES(d), output_a, length, start),
                      plain.write(d->counters, TABLES(d), output_b, length, start), SPIRESLATE_BLOCK + MARGIN,
                      "writing");
}

static int compare_line(const struct drawing *d, size_t line, size_t length, size_t start) {
    return must_write(proved.line(d->counters, TABLES(d), line, output_a, length, start),
                      plain.line(d->counters, TABLES(d), line, output_b, length, start), SPIRESLATE_LINE + MARGIN,
                      "a line");
}

/* Says how many bytes were put. */
static size_t compare_list(const struct drawing *d, size_t length, size_t start) {
    struct spireslate_write_answer a = proved.list(d->counters, TABLES(d), output_a, length, start);
    must_write(a, plain.list(d->counters, TABLES(d), output_b, length, start), sizeof output_a, "the list");
    return a.bytes;
}

static void compare_check(const struct drawing *d) {
    must(proved.check(d->counters, TABLES(d)) == plain.check(d->counters, TABLES(d)), "the check");
}

static int compare_groups(const struct drawing *d, unsigned site, unsigned seq, size_t length) {
    static uint64_t groups_a[SPIRESLATE_ROW + 1], groups_b[SPIRESLATE_ROW + 1];
    struct spireslate_groups_answer a =
        proved.groups(d->counters, TABLES(d), (uint8_t)site, (uint16_t)seq, groups_a, length);
    struct spireslate_groups_answer b =
        plain.groups(d->counters, TABLES(d), (uint8_t)site, (uint16_t)seq, groups_b, length);
    must(a.number == b.number && a.count == b.count && memcmp(groups_a, groups_b, sizeof groups_a) == 0, "the groups");
    return a.number;
}

/* The groups of what stands in some places, which may be a Create or not, and outputs of other lengths. */
static void compare_engines(const struct drawing *d) {
    enum { PLACES = 4 };
    compare_groups(d, 0, 1, SPIRESLATE_ROW);
    for (unsigned i = 0; i < PLACES; i++) {
        const uint8_t *record = d->records + random_below(d->counters.records % 256 + 1u) * SPIRESLATE_PLACE;
        unsigned site = record[1], seq = record[2] + 256u * record[3];
        compare_groups(d, site, seq, SPIRESLATE_ROW);
        compare_groups(d, site, seq, SPIRESLATE_ROW - 1 + random_below(3));
    }
    compare_groups(d, random_below(256), random_below(65536), 0);
}

/* The bytes of the block of a drawing; of an unsound one it is some number that is not too large. */
static size_t block_length(const struct drawing *d) {
    size_t length = SPIRESLATE_TRAILER;
    for (unsigned i = 0; i < d->counters.records && i < MOST_RECORDS; i++) {
        size_t bytes = record_length(d->records + (size_t)i * SPIRESLATE_PLACE);
        length += bytes <= SPIRESLATE_PLACE ? bytes : SPIRESLATE_PLACE;
    }
    return length;
}

/* Everything that is asked of a drawing, with room and without. */
static void compare_views(const struct drawing *d) {
    size_t block = block_length(d), start = random_below(MARGIN);
    compare_check(d);
    compare_engines(d);
    compare_write(d, start + block, start);
    compare_write(d, start + block - 1, start);
    compare_write(d, 0, start);
    size_t list = compare_list(d, SPIRESLATE_LIST + start, start);
    compare_list(d, start + list, start);
    compare_list(d, start + list - (list != 0), start);
    compare_list(d, 0, start);
    compare_line(d, 1, 16, SIZE_MAX);
    for (size_t line = 0; compare_line(d, line, SPIRESLATE_LINE + start, start) == SPIRESLATE_DONE; line++)
        compare_line(d, line, 20 + random_below(40), 0);
}

static int compare_arrive(struct drawing *d, const uint8_t *record, size_t length) {
    static struct drawing e;
    e = *d;
    int a = proved.arrive(&d->counters, TABLES(d), record, length);
    int b = plain.arrive(&e.counters, TABLES(&e), record, length);
    must(a == b, "the answer to an arrival");
    must_same(d, &e, "the drawing after an arrival");
    return a;
}

static int compare_read(struct drawing *d, const uint8_t *bytes, size_t length) {
    static struct drawing e;
    e = *d;
    struct spireslate_file_answer a = proved.read(&d->counters, TABLES(d), bytes, length);
    struct spireslate_file_answer b = plain.read(&e.counters, TABLES(&e), bytes, length);
    must(a.number == b.number && a.index == b.index, "the answer to a file");
    must_same(d, &e, "the drawing after a file");
    return a.number;
}

static int compare_open(struct drawing *d, unsigned n) {
    static struct drawing e;
    e = *d;
    int a = proved.open(&d->counters, TABLES(d), (uint8_t)n);
    int b = plain.open(&e.counters, TABLES(&e), (uint8_t)n);
    must(a == b, "the answer to opening");
    must_same(d, &e, "the drawing after opening");
    return a;
}

/* A file with one byte changed, every fourth time in its trailer; now and then cut as well. */
static void compare_damaged(struct drawing *d, const uint8_t *given, size_t length) {
    for (unsigned i = 0; i < DAMAGES; i++) {
        uint8_t bytes[SPIRESLATE_BLOCK];
        memcpy(bytes, given, length);
        size_t at = i % 4 == 1 ? length - 1 - random_below(SPIRESLATE_TRAILER) : random_below((unsigned)length);
        bytes[at] = (uint8_t)random_below(i % 2 == 0 ? 256 : 4);
        compare_read(d, bytes, length - (i % 8 == 0 ? random_below((unsigned)length + 1) : 0));
    }
}

/* The old block of a file that has one gives the same drawing; then it is damaged. */
static void compare_old(const struct file *f, const struct drawing *same) {
    static struct drawing d;
    static struct old_file old;
    file_shorten(&old, f);
    must(compare_read(&d, old.bytes, old.length) == SPIRESLATE_DONE, "an old file is refused");
    must_same(&d, same, "the drawings of an old file and of the long one");
    compare_damaged(&d, old.bytes, old.length);
}

void compare_file(const struct file *f) {
    static struct drawing d, e;
    must(compare_read(&d, f->bytes, f->length) == SPIRESLATE_DONE, "a file of the benchmark is refused");
    compare_views(&d);
    must(compare_open(&e, f->sites) == SPIRESLATE_DONE, "a drawing is not opened");
    for (unsigned i = 0; i < f->records; i++)
        must(compare_arrive(&e, file_record(f, i), record_length(file_record(f, i))) == SPIRESLATE_DONE,
             "an edit of the benchmark is refused");
    must_same(&d, &e, "a file and its records one by one");
    if (file_has_old(f)) compare_old(f, &e);
    compare_damaged(&d, f->bytes, f->length);
}

/* Puts sound groups, which the records do not give, in the row of an object. */
static void put_untrue_row(struct drawing *d, unsigned o) {
    enum { GROUPS = 32 };
    unsigned sets = d->objects[3 * o + 1], many = 1 + random_below(GROUPS), n = 0;
    uint64_t *row = d->groups + (size_t)o * GROUPS, below = sets == 64 ? UINT64_MAX : (UINT64_C(1) << sets) - 1;
    memset(row, 0, GROUPS * sizeof *row);
    for (unsigned tries = 0; tries < many; tries++) {
        uint64_t g = ((uint64_t)random_value() << 32 | random_value()) & random_value() & below;
        unsigned i = n;
        while (i > 0 && row[i - 1] > g) i--;
        if (i > 0 && row[i - 1] == g) continue;
        memmove(row + i + 1, row + i, (n++ - i) * sizeof *row);
        row[i] = g;
    }
    d->objects[3 * o + 2] = (uint16_t)n;
}

/* Changes something in a drawing, most often so that it is no longer sound. */
static void damage(struct drawing *d) {
    struct spireslate_counters *c = &d->counters;
    unsigned o = random_below(c->objects + 1u), bit = random_below(8);
    switch (random_below(9)) {
    case 0: c->held[random_below(SPIRESLATE_SITES)] ^= (uint16_t)(1u << bit); break;
    case 1: c->records ^= (uint16_t)(1u << bit); break;
    case 2: c->objects ^= (uint16_t)(1u << bit); break;
    case 3: c->sites ^= (uint8_t)(1u << bit); break;
    case 8: c->sum ^= 1u << bit; break;
    case 4:
        d->records[random_below((c->records + 1u) * SPIRESLATE_PLACE) % SPIRESLATE_RECORDS_LENGTH] ^=
            (uint8_t)(1u << bit);
        break;
    case 5: d->objects[(3 * o + random_below(3)) % SPIRESLATE_OBJECTS_LENGTH] ^= (uint16_t)(1u << bit); break;
    case 6: d->groups[(32 * o + random_below(32)) % SPIRESLATE_GROUPS_LENGTH] ^= UINT64_C(1) << bit; break;
    default: if (o < c->objects) put_untrue_row(d, o);
    }
}

/* The calls on tables one element short. */
static void compare_lengths(const struct drawing *given, const uint8_t *record) {
    static struct drawing d;
    size_t r = SPIRESLATE_RECORDS_LENGTH - 1, o = SPIRESLATE_OBJECTS_LENGTH, g = SPIRESLATE_GROUPS_LENGTH;
    const struct calls *both[2] = {&proved, &plain};
    for (unsigned i = 0; i < 2; i++) {
        d = *given;
        must(both[i]->open(&d.counters, d.records, r, d.objects, o, d.groups, g, 3) == SPIRESLATE_UNSOUND, "lengths");
        must(both[i]->arrive(&d.counters, d.records, r, d.objects, o, d.groups, g, record, SPIRESLATE_RECORD) ==
                 SPIRESLATE_UNSOUND,
             "lengths");
        must(both[i]->read(&d.counters, d.records, r, d.objects, o, d.groups, g, record, 0).number ==
                 SPIRESLATE_UNSOUND,
             "lengths");
        must(both[i]->check(d.counters, d.records, r, d.objects, o, d.groups, g) == SPIRESLATE_UNSOUND, "lengths");
        must(both[i]->line(d.counters, d.records, r, d.objects, o, d.groups, g, 0, output_a, 0, 0).number ==
                 SPIRESLATE_UNSOUND,
             "lengths");
        must_same(&d, given, "a drawing of a wrong length");
    }
}

/* Gives an edit the number before its own, or after it: it is then held already or early, whatever it has seen. */
static void renumber(uint8_t *record) {
    uint8_t *own = record + 4 + 2 * record[1];
    unsigned seq = record[2] + 256u * record[3] + 1 - 2 * random_below(2);
    record[2] = own[0] = (uint8_t)(seq % 256);
    record[3] = own[1] = (uint8_t)(seq / 256);
}

/* Hands in a record with one byte changed, or of another length, or under another number, or one that was handed in
   before. */
static void compare_wrong_arrival(struct drawing *d, const struct file *f, const uint8_t *record) {
    uint8_t wrong[2 * SPIRESLATE_PLACE] = {0};
    const uint8_t *other = file_record(f, random_below(f->records));
    size_t length = record_length(record), from = length > SPIRESLATE_RECORD ? random_below(2) * SPIRESLATE_RECORD : 0;
    memcpy(wrong, record, length);
    switch (random_below(6)) {
    case 0: compare_arrive(d, wrong, random_below(sizeof wrong)); break;
    case 1: compare_arrive(d, wrong, random_below(2) == 0 ? SPIRESLATE_PLACE : SPIRESLATE_RECORD); break;
    case 2: compare_arrive(d, other, record_length(other)); break;
    case 3:
        renumber(wrong);
        compare_arrive(d, wrong, length);
        break;
    default:
        /* of a limited Set every other time in its list */
        wrong[from + random_below((unsigned)(length - from))] = (uint8_t)random_below(random_below(2) == 0 ? 256 : 4);
        compare_arrive(d, wrong, random_below(2) == 0 ? length : record_length(wrong) % sizeof wrong);
    }
}

/* Limits the last Set, of the box s.q by a site, to a version that this site has before it; now and then to none. */
static const uint8_t *limit_random(struct file *f, unsigned site, unsigned s, unsigned q) {
    static struct file seen;
    struct name members[SPIRESLATE_MEMBERS];
    seen = *f;
    seen.records--; /* its author had not yet seen the Set itself */
    unsigned count = pick_version(&seen, site, s, q, members);
    if (count > 0 && random_below(8) == 0) count--;
    else if (count > 0 && random_below(16) == 0) members[random_below(count)].seq += 1 - 2 * random_below(2);
    return file_limit(f, members, count);
}

/* The next edit of a random site: a Create, or a Set, a limited one or a layer edit on a random Create, seen or not,
   or on itself. A drawing that is to have an old block gets Creates and Sets alone. */
static const uint8_t *make_random(struct file *f, unsigned site, int is_old) {
    if (random_below(4) == 0) file_sync(f, site, random_below(f->sites));
    if (random_below(8) == 0) file_sync_all(f);
    if (f->records == 0 || random_below(is_old ? 8 : 16) == 0) return file_create(f, site);
    if (random_below(16) == 0) return file_set(f, site, site, f->vectors[site][site] + 1u, 0, 0);
    const uint8_t *a = file_record(f, random_below(f->records));
    if (a[0] != SPIRESLATE_CREATE) a = f->bytes;
    unsigned s = a[1], q = a[2] + 256u * a[3];
    if (!is_old && random_below(8) == 0) return file_layer(f, site, s, q, (int)random_below(2));
    const uint8_t *set = file_set(f, site, s, q, random_below(3), random_below(3) * 8);
    return !is_old && random_below(2) == 0 ? limit_random(f, site, s, q) : set;
}

/* Writes a drawing, reads that again, and the old block where there is one. */
static void compare_stored(const struct drawing *d) {
    static struct drawing e;
    static struct file f;
    size_t length = block_length(d);
    must(compare_write(d, SPIRESLATE_BLOCK, 0) == SPIRESLATE_DONE, "a drawing is not written");
    e = *d;
    must(compare_read(&e, output_b, length) == SPIRESLATE_DONE, "a written drawing is not read");
    must_same(d, &e, "a drawing and its block");
    file_open(&f, "stored", d->counters.sites);
    while (f.records < d->counters.records) file_put(&f, output_b + f.starts[f.records]);
    file_close(&f);
    if (file_has_old(&f)) compare_old(&f, d);
    else compare_damaged(&e, f.bytes, f.length);
}

/* One random drawing. An edit that is refused is taken back by its site. */
static void compare_drawing(unsigned sites, unsigned arrivals, int is_old) {
    static struct drawing d, e;
    static struct file f, before;
    compare_open(&d, 0);
    compare_open(&d, SPIRESLATE_SITES + 1);
    must(compare_open(&d, sites) == SPIRESLATE_DONE, "a drawing is not opened");
    file_open(&f, "random", sites);
    for (unsigned i = 0; i < arrivals && f.records < MOST_RECORDS; i++) {
        before = f;
        const uint8_t *record = make_random(&f, random_below(sites), is_old);
        e = d;
        damage(&e);
        compare_arrive(&e, record, record_length(record));
        if (i % 16 == 0) compare_views(&e);
        if (i % 16 == 0) compare_lengths(&d, record);
        e = d;
        if (random_below(2) == 0) compare_wrong_arrival(&e, &f, record);
        if (compare_arrive(&d, record, record_length(record)) != SPIRESLATE_DONE) f = before;
        if (i % 16 == 0) compare_views(&d);
    }
    compare_stored(&d);
}

void compare_box(const struct drawing *d, unsigned answer) {
    compare_views(d);
    must(compare_groups(d, 0, 1, SPIRESLATE_ROW) == (int)answer, "the answer for a box of the benchmark");
}

void compare_objects(void) {
    enum { OBJECTS = 64 };
    static struct drawing d;
    static struct file f;
    must(compare_open(&d, 1) == SPIRESLATE_DONE, "a drawing is not opened");
    file_open(&f, "objects", 1);
    for (unsigned o = 0; o < OBJECTS; o++)
        must(compare_arrive(&d, file_create(&f, 0), SPIRESLATE_RECORD) == SPIRESLATE_DONE, "a Create is refused");
    must(compare_arrive(&d, file_create(&f, 0), SPIRESLATE_RECORD) == SPIRESLATE_FULL, "an object more is taken");
    file_close(&f);
    must(compare_read(&d, f.bytes, f.length) == SPIRESLATE_FULL, "an object more is read");
}

void compare_random(unsigned drawings, unsigned arrivals) {
    for (unsigned i = 0; i < drawings; i++) {
        unsigned sites = 1 + i % SPIRESLATE_SITES;
        compare_drawing(sites, arrivals, sites <= SPIRESLATE_OLD_SITES && i / SPIRESLATE_SITES % 2 == 0);
    }
}
