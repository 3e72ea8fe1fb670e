/* The files of the benchmark. */
#include "inputs.h"

#include <string.h>

enum { SITES = SPIRESLATE_SITES, EIGHT = SPIRESLATE_OLD_SITES };

static void put_many(struct file *f, const char *name, unsigned sites, unsigned objects) {
    enum { ROUNDS = 3, KEYS = 2 };
    file_open(f, name, sites);
    for (unsigned o = 0; o < objects; o++) file_create(f, o % sites);
    file_sync_all(f);
    for (unsigned i = 0; i < ROUNDS * objects; i++) {
        unsigned site = random_below(sites), o = i % objects;
        if (random_below(4) == 0) file_sync(f, site, random_below(sites));
        file_set(f, site, o % sites, o / sites + 1, random_below(KEYS), random_value());
    }
    file_close(f);
}

void make_many(struct file *f) { put_many(f, "256 records, 64 objects", EIGHT, 64); }
void make_many_wide(struct file *f) { put_many(f, "256 records, 16 sites", SITES, 64); }
void make_half_many(struct file *f) { put_many(f, "128 records, 32 objects", EIGHT, 32); }
void make_half_many_wide(struct file *f) { put_many(f, "128 records, 16 sites", SITES, 32); }

enum { KEYS = 16 };

static void put_undisputed(struct file *f, const char *name, unsigned records) {
    enum { OBJECTS = 4 };
    file_open(f, name, 1);
    for (unsigned o = 0; o < OBJECTS; o++) file_create(f, 0);
    for (unsigned i = 0; f->records < records; i++)
        file_set(f, 0, 0, 1 + i % OBJECTS, i / OBJECTS % KEYS, 1000 * i);
    file_close(f);
}

void make_undisputed(struct file *f) { put_undisputed(f, "256 undisputed, 1 site", 256); }
void make_half_undisputed(struct file *f) { put_undisputed(f, "128 undisputed, 1 site", 128); }

void make_layers(struct file *f) {
    enum { OBJECTS = 64 };
    file_open(f, "128 layer edits", SITES);
    for (unsigned o = 0; o < OBJECTS; o++) file_create(f, o % SITES);
    file_sync_all(f);
    for (unsigned i = 0; i < 3 * OBJECTS; i++) {
        unsigned site = random_below(SITES), o = random_below(OBJECTS);
        if (random_below(4) == 0) file_sync(f, site, random_below(SITES));
        if (i % 3 == 0) file_set(f, site, o % SITES, o / SITES + 1, 2, random_value());
        else file_layer(f, site, o % SITES, o / SITES + 1, (int)random_below(2));
    }
    file_close(f);
}

/* A Create that all sites have seen. */
static void open_box(struct file *f, const char *name, unsigned sites) {
    file_open(f, name, sites);
    file_create(f, 0);
    file_sync_all(f);
}

/* Sets up to so many, each made when all before it had been seen. */
static void settle_box(struct file *f, unsigned sets) {
    for (unsigned i = f->records - 1; i < sets; i++) {
        file_sync_all(f);
        file_set(f, i % f->sites, 0, 1, random_below(KEYS), random_value());
    }
    file_close(f);
}

/* Three boxes more, and their Sets in turn until there are 256 records; the last one is of the last box. */
static void fill_up(struct file *f, const char *name) {
    enum { BOXES = 3 };
    f->name = name;
    file_sync_all(f);
    for (unsigned box = 0; box < BOXES; box++) file_create(f, 0);
    unsigned last = f->vectors[0][0];
    for (unsigned i = 0; f->records < MOST_RECORDS; i++) {
        unsigned left = MOST_RECORDS - 1 - f->records;
        file_sync_all(f);
        file_set(f, i % f->sites, 0, last - left % BOXES, i / BOXES % KEYS, 1000 * i);
    }
    file_close(f);
}

enum { SETS = 64, DISPUTED_KEYS = 5 };

void make_settled(struct file *f) {
    open_box(f, "64 Sets, 32 versions", EIGHT);
    for (unsigned i = 0; i < 2 * DISPUTED_KEYS; i++) file_set(f, 1 + i % 2, 0, 1, i / 2, random_value());
    settle_box(f, SETS);
}

void make_disputed(struct file *f) {
    open_box(f, "64 Sets in dispute", EIGHT);
    for (unsigned i = 0; i < SETS; i++) file_set(f, 1 + i % 2, 0, 1, i / 2 % DISPUTED_KEYS, 1000000 * (1 + i % 2));
    file_close(f);
}

void make_settled_full(struct file *f) {
    make_settled(f);
    fill_up(f, "32 versions, 256 records");
}

void make_disputed_full(struct file *f) {
    make_disputed(f);
    fill_up(f, "64 in dispute, 256 records");
}

void make_wide(struct file *f) {
    enum { BY_ALL = 48 };
    open_box(f, "64 Sets of 16 sites", SITES);
    for (unsigned i = 0; i < BY_ALL; i++) file_set(f, i % SITES, 0, 1, 2, 1000000 * (1 + i % SITES));
    for (unsigned i = BY_ALL; i < SETS; i++) file_set(f, 1 + i % 2, 0, 1, 3, 1000000 * (1 + i % 2));
    file_close(f);
}

enum { MOST_TIMES = 5 };

/* The Sets that split a box, time after time. A version is called by those that split it off, one of each time: bit t
   of its number says which of the two sites made that of time t. */
struct splits {
    unsigned times;
    struct name made[MOST_TIMES][1 << MOST_TIMES];
};

/* Puts a Set of the box 0.box that is limited to the version v; gives its name. */
static struct name put_limited(struct file *f, const struct splits *s, unsigned site, unsigned box, unsigned v,
                               unsigned key, uint32_t value) {
    struct name members[MOST_TIMES];
    for (unsigned t = 0; t < s->times; t++) {
        struct name new = s->made[t][v & ((2u << t) - 1)];
        unsigned i = t;
        for (; i > 0 && (members[i - 1].site > new.site ||
                         (members[i - 1].site == new.site && members[i - 1].seq > new.seq)); i--)
            members[i] = members[i - 1];
        members[i] = new;
    }
    file_set(f, site, 0, box, key, value);
    file_limit(f, members, s->times);
    return (struct name){site, f->vectors[site][site]};
}

/* Splits the box 0.box, which has no Sets, so many times, and then limits so many Sets to its first versions. */
static void split_box(struct file *f, unsigned box, unsigned times, unsigned more) {
    enum { KEY = 2, FAR = 1000000 };
    struct splits s = {0};
    for (; s.times < times; s.times++) {
        file_sync_all(f);
        for (unsigned v = 0; v < 1u << s.times; v++)
            for (unsigned site = 1; site <= 2; site++)
                s.made[s.times][v | (site - 1) << s.times] =
                    put_limited(f, &s, site, box, v, KEY + s.times, FAR * (2 * v + site));
    }
    for (unsigned v = 0; v < more; v++) {
        file_sync_all(f);
        put_limited(f, &s, v % f->sites, box, v, KEY + times, FAR * v);
    }
}

void make_split(struct file *f) {
    open_box(f, "64 limited Sets", EIGHT);
    split_box(f, 1, MOST_TIMES, 2);
    file_close(f);
}

void make_split_boxes(struct file *f) {
    enum { BOXES = 8, TIMES = 4 };
    file_open(f, "248 limited Sets, 8 boxes", EIGHT);
    for (unsigned box = 1; box <= BOXES; box++) file_create(f, 0);
    for (unsigned box = 1; box <= BOXES; box++) split_box(f, box, TIMES, 1);
    file_close(f);
}

void make_recoloured(struct file *f) {
    enum { BOXES = 64, KEY = 2, COLOUR = 3 };
    file_open(f, "64 limited Sets, 64 boxes", EIGHT);
    for (unsigned box = 1; box <= BOXES; box++) file_create(f, 0);
    file_sync_all(f);
    for (unsigned box = 1; box <= BOXES; box++)
        for (unsigned site = 1; site <= 2; site++) file_set(f, site, 0, box, KEY, 1000 * site + box);
    file_sync_all(f);
    for (unsigned box = 1; box <= BOXES; box++) {
        struct name member = {1 + box % 2, box};
        file_set(f, 3 + box % 5, 0, box, COLOUR, box);
        file_limit(f, &member, 1);
    }
    file_close(f);
}

/* Values that lie so far apart are in two squares of the grid, so that they differ under every key. */
enum { BOX_SETS = 20, APART = 8 };

void make_calm(struct file *f) {
    open_box(f, "20 Sets, no conflict", EIGHT);
    settle_box(f, BOX_SETS);
}

void make_row(struct file *f) {
    open_box(f, "20 Sets, 32 groups", EIGHT);
    for (unsigned i = 0; i < 2 * DISPUTED_KEYS; i++) file_set(f, 1 + i % 2, 0, 1, i / 2, APART * i);
    settle_box(f, BOX_SETS);
}

void make_sixteen(struct file *f) {
    open_box(f, "20 Sets, 16 groups", SITES);
    for (unsigned i = 0; i < BOX_SETS; i++) file_set(f, i % SITES, 0, 1, 0, APART * i);
    file_close(f);
}

void make_pairs(struct file *f) {
    open_box(f, "20 Sets, 1,024 groups", EIGHT);
    for (unsigned i = 0; i < BOX_SETS; i++) file_set(f, 1 + i % 2, 0, 1, i / 2, APART * i);
    file_close(f);
}

void make_hard(struct file *f) {
    /* a Set: its site, key and value; or a site that applies what another has: the two, and SEES */
    enum { SEES = 255 };
    static const uint8_t made[][3] = {
        {3, 4, 0}, {4, 4, 1}, {4, 3, 2}, {3, 3, 3}, {4, 2, 3}, {3, 0, 2}, {3, 1, 3}, {2, 3, SEES}, {2, 1, 2},
        {1, 1, 2}, {4, 0, 3}, {1, 3, 2}, {5, 2, 2}, {3, 1, SEES}, {5, 4, SEES}, {7, 0, 1}, {0, 3, SEES},
        {0, 3, 3}, {3, 3, 4}, {1, 5, SEES}, {0, 1, 0}, {3, 1, 1}, {7, 2, 5}, {1, 4, 6}, {7, 4, 0},
    };
    open_box(f, "20 Sets, a long search", EIGHT);
    for (unsigned i = 0; i < sizeof made / sizeof *made; i++) {
        if (made[i][2] == SEES) file_sync(f, made[i][0], made[i][1]);
        else file_set(f, made[i][0], 0, 1, made[i][1], APART * made[i][2]);
    }
    file_close(f);
}

void make_branches(struct file *f) {
    open_box(f, "20 limited Sets, 8 groups", EIGHT);
    split_box(f, 1, 3, 6);
    file_close(f);
}

void hold_untrue(struct drawing *d, const struct file *f) {
    memset(d, 0, sizeof *d);
    d->counters.sites = (uint8_t)f->sites;
    d->counters.records = (uint16_t)f->records;
    d->counters.objects = 1;
    for (size_t i = 0; i < f->starts[f->records]; i++)
        d->counters.sum += (uint32_t)f->bytes[i] << 8 * (i % sizeof d->counters.sum);
    for (unsigned i = 0; i < f->records; i++) {
        const uint8_t *record = file_record(f, i);
        d->counters.held[record[1]]++;
        memcpy(d->records + i * SPIRESLATE_PLACE, record, record_length(record));
    }
    d->objects[1] = (uint16_t)(f->records - 1);
    d->objects[2] = 1;
}
