/* Edits as laptops would make them, and the files that hold them. A site's vector is what it has applied; applying
   what another site has takes in all that the other had applied, so that no vector is torn. */
#include "inputs.h"

#include <string.h>

enum { SITES = SPIRESLATE_SITES, EIGHT = SPIRESLATE_OLD_SITES };
enum { AT_VECTOR = 4, AT_TARGET = AT_VECTOR + 2 * SITES, AT_VALUE = AT_TARGET + 4, AT_COUNT = SPIRESLATE_RECORD };

static uint64_t random_state = 1;

/* A linear congruential generator modulo 2^64, of which the high bits are used. */
static uint32_t random_next(void) {
    random_state = random_state * UINT64_C(6364136223846793005) + UINT64_C(1442695040888963407);
    return (uint32_t)(random_state >> 32);
}

unsigned random_below(unsigned n) { return (unsigned)((uint64_t)random_next() * n >> 32); }

uint32_t random_value(void) { return random_next(); }

void file_open(struct file *f, const char *name, unsigned sites) {
    memset(f, 0, sizeof *f);
    f->name = name;
    f->sites = sites;
}

void file_sync(struct file *f, unsigned to, unsigned from) {
    for (unsigned s = 0; s < SITES; s++)
        if (f->vectors[to][s] < f->vectors[from][s]) f->vectors[to][s] = f->vectors[from][s];
}

void file_sync_all(struct file *f) {
    for (unsigned s = 0; s < f->sites; s++) file_sync(f, 0, s);
    for (unsigned s = 0; s < f->sites; s++) file_sync(f, s, 0);
}

static void put_two(uint8_t *bytes, unsigned n) {
    bytes[0] = (uint8_t)(n % 256);
    bytes[1] = (uint8_t)(n / 256);
}

size_t record_length(const uint8_t *record) {
    if (record[0] != SPIRESLATE_LIMITED) return SPIRESLATE_RECORD;
    size_t count = record[AT_COUNT] + 256u * record[AT_COUNT + 1];
    return SPIRESLATE_LIMITED_RECORD + count * SPIRESLATE_MEMBER;
}

/* Puts kind, site, sequence number and vector of the next edit of a site. */
static uint8_t *put_edit(struct file *f, unsigned kind, unsigned site) {
    uint8_t *record = f->bytes + f->starts[f->records++];
    f->starts[f->records] = f->starts[f->records - 1] + SPIRESLATE_RECORD;
    memset(record, 0, SPIRESLATE_RECORD);
    f->vectors[site][site]++;
    record[0] = (uint8_t)kind;
    record[1] = (uint8_t)site;
    put_two(record + 2, f->vectors[site][site]);
    for (unsigned s = 0; s < SITES; s++) put_two(record + AT_VECTOR + 2 * s, f->vectors[site][s]);
    return record;
}

/* The next edit of a site, on the Create s.q. */
static uint8_t *put_aimed(struct file *f, unsigned kind, unsigned site, unsigned s, unsigned q) {
    uint8_t *record = put_edit(f, kind, site);
    record[AT_TARGET] = (uint8_t)s;
    put_two(record + AT_TARGET + 2, q);
    return record;
}

const uint8_t *file_create(struct file *f, unsigned site) { return put_edit(f, SPIRESLATE_CREATE, site); }

const uint8_t *file_set(struct file *f, unsigned site, unsigned s, unsigned q, unsigned key, uint32_t value) {
    uint8_t *record = put_aimed(f, SPIRESLATE_SET, site, s, q);
    record[AT_TARGET + 1] = (uint8_t)key;
    put_two(record + AT_VALUE, value % 65536);
    put_two(record + AT_VALUE + 2, value / 65536);
    return record;
}

const uint8_t *file_layer(struct file *f, unsigned site, unsigned s, unsigned q, int to_top) {
    return put_aimed(f, to_top ? SPIRESLATE_TOP : SPIRESLATE_BOTTOM, site, s, q);
}

const uint8_t *file_limit(struct file *f, const struct name *members, unsigned count) {
    uint8_t *record = f->bytes + f->starts[f->records - 1], *member = record + SPIRESLATE_LIMITED_RECORD;
    record[0] = SPIRESLATE_LIMITED;
    memset(record + AT_COUNT, 0, SPIRESLATE_LIMITED_RECORD - AT_COUNT);
    put_two(record + AT_COUNT, count);
    for (unsigned i = 0; i < count; i++, member += SPIRESLATE_MEMBER) {
        put_two(member, members[i].site);
        put_two(member + 2, members[i].seq);
    }
    f->starts[f->records] = (size_t)(member - f->bytes);
    return record;
}

void file_put(struct file *f, const uint8_t *record) {
    size_t length = record_length(record);
    memcpy(f->bytes + f->starts[f->records], record, length);
    f->records++;
    f->starts[f->records] = f->starts[f->records - 1] + length;
}

/* Puts the trailer of so many records, which have so many bytes; says how long the file is. */
static size_t put_trailer(uint8_t *bytes, unsigned records, unsigned sites, unsigned form, size_t distance) {
    uint8_t *trailer = bytes + distance;
    memset(trailer, 0, SPIRESLATE_TRAILER);
    put_two(trailer, records);
    trailer[2] = (uint8_t)sites;
    trailer[3] = (uint8_t)form;
    put_two(trailer + 4, (unsigned)distance);
    return distance + SPIRESLATE_TRAILER;
}

void file_close(struct file *f) {
    f->length = put_trailer(f->bytes, f->records, f->sites, SPIRESLATE_LONG_FORM, f->starts[f->records]);
}

int file_has_old(const struct file *f) {
    for (unsigned i = 0; i < f->records; i++)
        if (*file_record(f, i) != SPIRESLATE_CREATE && *file_record(f, i) != SPIRESLATE_SET) return 0;
    return f->sites <= EIGHT;
}

void file_shorten(struct old_file *old, const struct file *f) {
    enum { FRONT = AT_VECTOR + 2 * EIGHT };
    for (unsigned i = 0; i < f->records; i++) {
        uint8_t *to = old->bytes + i * SPIRESLATE_OLD_RECORD;
        const uint8_t *from = file_record(f, i);
        memcpy(to, from, FRONT);
        memcpy(to + FRONT, from + AT_TARGET, SPIRESLATE_OLD_RECORD - FRONT);
    }
    old->length = put_trailer(old->bytes, f->records, f->sites, SPIRESLATE_OLD_FORM,
                              (size_t)f->records * SPIRESLATE_OLD_RECORD);
}
