/* Document 01's example through the C interface: a drawing of three sites takes four edits one by one, its list is
   printed by lines and whole, its box's groups are worked out a second time, its block is written behind other bytes,
   located, read into other tables and checked, and so is a block of the same edits in the old form. Then an edit that
   is limited to one of the two versions, and some inputs that are refused, each with its number. `run` compares what
   is printed with example.expected. */
#include <stdio.h>
#include <string.h>

#include "spireslate.h"

/* The layouts that the library was compiled with. */
_Static_assert(sizeof(struct spireslate_counters) == 44, "counters");
_Static_assert(sizeof(struct spireslate_file_answer) == 16, "answer to a file");
_Static_assert(sizeof(struct spireslate_write_answer) == 16, "answer to a call that writes");
_Static_assert(sizeof(struct spireslate_groups_answer) == 16, "answer to a call that gives groups");
_Static_assert(sizeof(struct spireslate_located) == 16, "a located block");
_Static_assert(SPIRESLATE_LIMITED_RECORD + SPIRESLATE_MEMBERS * SPIRESLATE_MEMBER == SPIRESLATE_PLACE, "a place");

/* What the caller keeps of a drawing, and the tables of one as a call takes them. */
struct drawing {
    struct spireslate_counters counters;
    uint8_t records[SPIRESLATE_RECORDS_LENGTH];
    uint16_t objects[SPIRESLATE_OBJECTS_LENGTH];
    uint64_t groups[SPIRESLATE_GROUPS_LENGTH];
};

#define TABLES(d)                                                                                                    \
    (d)->records, SPIRESLATE_RECORDS_LENGTH, (d)->objects, SPIRESLATE_OBJECTS_LENGTH, (d)->groups,                   \
        SPIRESLATE_GROUPS_LENGTH

enum { EDITS = 4, PICTURE = 16, BEHIND = 4, BLOCK = EDITS * SPIRESLATE_RECORD + SPIRESLATE_TRAILER, MARK = 0xAA };
enum { OLD_BLOCK = EDITS * SPIRESLATE_OLD_RECORD + SPIRESLATE_TRAILER };

/* Where a record has its vector, where what stands behind that, and where a limited Set has its count and members. */
enum { VECTOR = 4, TARGET = VECTOR + 2 * SPIRESLATE_SITES, OLD_TARGET = VECTOR + 2 * SPIRESLATE_OLD_SITES };
enum { COUNT = SPIRESLATE_RECORD, LISTED = SPIRESLATE_LIMITED_RECORD, LIMITED = LISTED + SPIRESLATE_MEMBER };

static const char *const names[EDITS] = {"0.1", "1.1", "2.1", "0.2"};

/* Kind, site, sequence number; the vector; target site, key, target sequence number, value. What is left out is 0. */
static const uint8_t edits[EDITS][SPIRESLATE_RECORD] = {
    {1, 0, 1, 0, [VECTOR] = 1, 0, 0, 0, 0, 0},
    {2, 1, 1, 0, [VECTOR] = 1, 0, 1, 0, 0, 0, [TARGET] = 0, 2, 1, 0, 40, 0, 0, 0},
    {2, 2, 1, 0, [VECTOR] = 1, 0, 0, 0, 1, 0, [TARGET] = 0, 2, 1, 0, 44, 0, 0, 0},
    {2, 0, 2, 0, [VECTOR] = 2, 0, 0, 0, 0, 0, [TARGET] = 0, 5, 1, 0, 7, 0, 0, 0},
};

/* Edit 0.3, of site 0 when it has both versions before it, on the one that 1.1 makes: behind the value the count, two
   zero bytes, and that member. The array has room for more, as a place of the table has. */
static const uint8_t limited[SPIRESLATE_PLACE] = {
    3, 0, 3, 0, [VECTOR] = 3, 0, 1, 0, 1, 0, [TARGET] = 0, 3, 1, 0, 7, 0, 0, 0,
    [COUNT] = 1, 0, 0, 0, [LISTED] = 1, 0, 1, 0,
};

static struct drawing first, second, third, damaged;
static uint8_t output[SPIRESLATE_LIST];
static uint8_t file[PICTURE + BLOCK + BEHIND], old_file[OLD_BLOCK];

static void print_bytes(const uint8_t *bytes, size_t n) { fwrite(bytes, 1, n, stdout); }

static void take_edits(struct drawing *d) {
    printf("open 3 sites: %d\n", spireslate_open(&d->counters, TABLES(d), 3));
    for (int i = 0; i < EDITS; i++) {
        int number = spireslate_arrive(&d->counters, TABLES(d), edits[i], sizeof edits[i]);
        printf("edit %s: %d\n", names[i], number);
    }
}

static void print_counters(const struct drawing *d) {
    printf("sites %d records %d objects %d held", d->counters.sites, d->counters.records, d->counters.objects);
    for (int s = 0; s < SPIRESLATE_SITES; s++) printf(" %d", d->counters.held[s]);
    printf(" sum %lu\n", (unsigned long)d->counters.sum);
}

static void print_lines(const struct drawing *d) {
    for (size_t k = 0;; k++) {
        struct spireslate_write_answer w =
            spireslate_line(d->counters, TABLES(d), k, output, SPIRESLATE_LINE, 0);
        printf("line %zu: %d, %zu bytes\n", k, w.number, w.bytes);
        if (w.number != SPIRESLATE_DONE) return;
        print_bytes(output, w.bytes);
    }
}

static void print_list(const struct drawing *d) {
    struct spireslate_write_answer w = spireslate_list(d->counters, TABLES(d), output, sizeof output, 0);
    printf("list: %d, %zu bytes\n", w.number, w.bytes);
    print_bytes(output, w.bytes);
}

/* The groups of the box by the second engine, which knows no arrival order, beside its row; then what is no box, and an
   output that is one number short. */
static void compare_engines(const struct drawing *d) {
    uint64_t row[SPIRESLATE_ROW];
    struct spireslate_groups_answer g = spireslate_groups(d->counters, TABLES(d), 0, 1, row, SPIRESLATE_ROW);
    printf("groups of 0.1: %d, %zu:", g.number, g.count);
    for (size_t i = 0; i < g.count; i++) printf(" %d", (int)row[i]);
    printf("\nas in its row: %d\n", g.count == d->objects[2] && memcmp(row, d->groups, sizeof row) == 0);
    g = spireslate_groups(d->counters, TABLES(d), 1, 1, row, SPIRESLATE_ROW);
    printf("groups of 1.1: %d, %zu\n", g.number, g.count);
    g = spireslate_groups(d->counters, TABLES(d), 0, 1, row, SPIRESLATE_ROW - 1);
    printf("31 numbers for groups: %d, %zu\n", g.number, g.count);
}

/* Whether bytes a to e of the file have the mark that they had before the block was written. */
static int is_marked(size_t a, size_t e) {
    for (size_t i = a; i < e; i++)
        if (file[i] != MARK) return 0;
    return 1;
}

static void store(const struct drawing *d) {
    memset(file, MARK, sizeof file);
    struct spireslate_write_answer w = spireslate_write(d->counters, TABLES(d), file, sizeof file, PICTURE);
    printf("write at %d: %d, %zu bytes\n", PICTURE, w.number, w.bytes);
    printf("bytes before stayed: %d, behind: %d\n", is_marked(0, PICTURE),
           is_marked(PICTURE + BLOCK, PICTURE + BLOCK + BEHIND));
    printf("trailer:");
    for (int i = PICTURE + BLOCK - SPIRESLATE_TRAILER; i < PICTURE + BLOCK; i++) printf(" %02X", file[i]);
    printf("\n");
}

static void load(struct drawing *d, const uint8_t *bytes, size_t length) {
    struct spireslate_located l = spireslate_locate(bytes, length);
    printf("locate: %d, sites %d, form %d, records %d, start %zu\n", l.number, l.sites, l.form, l.records, l.start);
    struct spireslate_file_answer r = spireslate_read(&d->counters, TABLES(d), bytes, length);
    printf("read: %d, index %zu\n", r.number, r.index);
    printf("check: %d\n", spireslate_check(d->counters, TABLES(d)));
}

/* An old block of the edits: of each vector it has the first eight entries alone. */
static void store_old(void) {
    static const uint8_t trailer[] = {EDITS, 0, 3, SPIRESLATE_OLD_FORM, EDITS * SPIRESLATE_OLD_RECORD, 0, 0, 0};
    for (int i = 0; i < EDITS; i++) {
        uint8_t *record = old_file + i * SPIRESLATE_OLD_RECORD;
        memcpy(record, edits[i], OLD_TARGET);
        memcpy(record + OLD_TARGET, edits[i] + TARGET, SPIRESLATE_OLD_RECORD - OLD_TARGET);
    }
    memcpy(old_file + OLD_BLOCK - SPIRESLATE_TRAILER, trailer, sizeof trailer);
}

/* Reads the old block; what it opens to is the drawing of the long one, and is written as that. */
static void load_old(struct drawing *d, const struct drawing *same) {
    load(d, old_file, OLD_BLOCK);
    printf("the same tables: %d\n", memcmp(d->records, same->records, sizeof d->records) == 0 &&
                                         memcmp(d->objects, same->objects, sizeof d->objects) == 0 &&
                                         memcmp(d->groups, same->groups, sizeof d->groups) == 0);
    struct spireslate_write_answer w = spireslate_write(d->counters, TABLES(d), output, BLOCK, 0);
    printf("write: %d, %zu bytes\n", w.number, w.bytes);
    printf("the same block: %d\n", memcmp(output, file + PICTURE, BLOCK) == 0);
}

static int hand_in(struct drawing *d, const uint8_t *record, size_t length) {
    return spireslate_arrive(&d->counters, TABLES(d), record, length);
}

/* What is no limited Set, or is limited to no version; then the one that is, which shows in its version alone. */
static void limit(struct drawing *d) {
    uint8_t record[LIMITED];
    memcpy(record, limited, sizeof record);
    printf("edit 0.3 without its member: %d\n", hand_in(d, limited, LISTED));
    printf("edit 0.3 in its place: %d\n", hand_in(d, limited, sizeof limited));
    record[COUNT] = 0;
    printf("edit 0.3 limited to no version: %d\n", hand_in(d, record, LISTED));
    record[COUNT] = 1;
    printf("edit 0.3 limited to 1.1: %d\n", hand_in(d, record, LIMITED));
    print_counters(d);
    print_list(d);
    struct spireslate_write_answer w = spireslate_write(d->counters, TABLES(d), output, BLOCK + LIMITED, 0);
    printf("write: %d, %zu bytes\n", w.number, w.bytes);
    load(d, output, w.bytes);
}

/* Tables one element short, one after another, then a damaged group, and a number of sites that is none. */
static void refuse_tables(struct drawing *d) {
    struct spireslate_counters *c = &d->counters;
    printf("a record byte short: %d\n", spireslate_open(c, d->records, SPIRESLATE_RECORDS_LENGTH - 1, d->objects,
                                                        SPIRESLATE_OBJECTS_LENGTH, d->groups,
                                                        SPIRESLATE_GROUPS_LENGTH, 3));
    printf("an object number short: %d\n",
           spireslate_arrive(c, d->records, SPIRESLATE_RECORDS_LENGTH, d->objects, SPIRESLATE_OBJECTS_LENGTH - 1,
                             d->groups, SPIRESLATE_GROUPS_LENGTH, edits[0], SPIRESLATE_RECORD));
    printf("a group short: %d\n",
           spireslate_check(*c, d->records, SPIRESLATE_RECORDS_LENGTH, d->objects, SPIRESLATE_OBJECTS_LENGTH,
                            d->groups, SPIRESLATE_GROUPS_LENGTH - 1));
    damaged = *d;
    damaged.groups[0] = damaged.groups[1];
    struct spireslate_write_answer w = spireslate_line(damaged.counters, TABLES(&damaged), 0, output, 0, 0);
    printf("equal groups: %d, %zu bytes\n", w.number, w.bytes);
    printf("0 sites: %d\n", spireslate_open(c, TABLES(d), 0));
    printf("17 sites: %d\n", spireslate_open(c, TABLES(d), SPIRESLATE_SITES + 1));
}

static void refuse_edits(struct drawing *d) {
    uint8_t late[SPIRESLATE_RECORD];
    memcpy(late, edits[1], sizeof late);
    late[2] = late[6] = 3;
    printf("a record of 43 bytes: %d\n",
           spireslate_arrive(&d->counters, TABLES(d), edits[0], SPIRESLATE_RECORD - 1));
    printf("an old record: %d\n", spireslate_arrive(&d->counters, TABLES(d), old_file, SPIRESLATE_OLD_RECORD));
    printf("edit 1.1 again: %d\n", spireslate_arrive(&d->counters, TABLES(d), edits[1], SPIRESLATE_RECORD));
    printf("edit 1.3 before 1.2: %d\n", spireslate_arrive(&d->counters, TABLES(d), late, SPIRESLATE_RECORD));
}

static void refuse_outputs(const struct drawing *d) {
    struct spireslate_write_answer w;
    w = spireslate_write(d->counters, TABLES(d), output, BLOCK, 1);
    printf("no room for the block: %d, %zu bytes\n", w.number, w.bytes);
    w = spireslate_line(d->counters, TABLES(d), 0, output, sizeof output, SIZE_MAX);
    printf("no room for a line: %d, %zu bytes\n", w.number, w.bytes);
    size_t bytes = spireslate_list(d->counters, TABLES(d), output, sizeof output, 0).bytes;
    w = spireslate_list(d->counters, TABLES(d), output, bytes, 1);
    printf("no room for the list: %d, %zu bytes\n", w.number, w.bytes);
    w = spireslate_list(d->counters, TABLES(d), output, bytes, 0);
    printf("room for the list and no more: %d, %zu bytes\n", w.number, w.bytes);
}

/* A file that ends inside its trailer, which leaves the drawing; then one whose third record has no kind, which leaves
   an empty drawing. */
static void refuse_files(struct drawing *d) {
    load(d, file, PICTURE + BLOCK - 1);
    print_counters(d);
    file[PICTURE + 2 * SPIRESLATE_RECORD] = 0;
    load(d, file, PICTURE + BLOCK);
    print_counters(d);
    print_list(d);
}

int main(void) {
    take_edits(&first);
    print_counters(&first);
    print_lines(&first);
    print_list(&first);
    compare_engines(&first);
    store(&first);
    load(&second, file, PICTURE + BLOCK);
    print_counters(&second);
    print_list(&second);
    store_old();
    load_old(&third, &second);
    print_counters(&third);
    limit(&third);
    refuse_tables(&second);
    refuse_edits(&second);
    refuse_outputs(&second);
    printf("check: %d\n", spireslate_check(second.counters, TABLES(&second)));
    refuse_files(&second);
    return 0;
}
