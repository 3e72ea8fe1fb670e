/* Makes calls of spireslate.h as a script on standard input asks for them, thousands in one process, and writes the
   outcome of each to standard output. All that is lent to a call (counters, three tables, record, file, output) stands
   in slots. Each slot lies between guard bytes, and is compared with a copy from before the call, whether or not the
   call may write there. tools/compare-calls writes the script and holds each outcome to the documents. All numbers are
   little-endian, as the processor has them.

   The script:  'F', slot (1), length in bytes (4), the bytes: the slot holds these from now on.
                'C', call (1), n (1), line (8), start (8): the call is made with what the slots hold. For the call
                that gives groups, n and line are the site and the sequence number of a Create.
   An outcome:  number (1), sites (1), form (1), records (2), value (8): what the call gave; 0 where it gives no such
                thing. The value is the index of a refused record, the bytes written, the start of a located block, or
                how many groups there are.
                Touched guards (1): a bit for each slot.
                For each slot: first (4), length (4), so many bytes: the stretch from the first byte that changed to
                the last one, as it is now; 0 and 0 where none did. */
#include <stdio.h>
#include <stdlib.h>
#include <string.h>

#include "spireslate.h"

enum { COUNTERS, RECORDS, OBJECTS, GROUPS, RECORD, STORED, OUTPUT, SLOTS };
enum { OPEN, ARRIVE, READ, CHECK, WRITE, LINE, LIST, LOCATE, ENUMERATE };
/* The guard's size keeps a slot aligned for every type. */
enum { GUARD = 1024, MARK = 0xA5 };
/* The bytes of the counters that C leaves open: one before the number of records, and two before the sum. */
static const size_t padding[] = {1, offsetof(struct spireslate_counters, sum) - 2,
                                 offsetof(struct spireslate_counters, sum) - 1};

struct slot {
    uint8_t *memory; /* a guard, the bytes, a guard */
    uint8_t *before; /* the same before the call */
    size_t length;
};

struct request {
    uint8_t call, n;
    uint64_t line, start;
};

struct outcome {
    uint8_t number, sites, form;
    uint16_t records;
    uint64_t value;
};

static struct slot slots[SLOTS];

static void stop(const char *why) {
    fprintf(stderr, "calls: %s\n", why);
    exit(2);
}

static void take(void *to, size_t length) {
    if (fread(to, 1, length, stdin) != length) stop("the script ends within a line");
}

static void give(const void *from, size_t length) {
    if (fwrite(from, 1, length, stdout) != length) stop("the outcome could not be written");
}

static uint8_t *bytes_of(int s) { return slots[s].memory + GUARD; }

static size_t whole(const struct slot *slot) { return GUARD + slot->length + GUARD; }

/* A slot of so many bytes, its guards marked. */
static void make_slot(struct slot *slot, size_t length) {
    slot->length = length;
    free(slot->memory);
    free(slot->before);
    slot->memory = malloc(whole(slot));
    slot->before = malloc(whole(slot));
    if (!slot->memory || !slot->before) stop("no memory");
    memset(slot->memory, MARK, whole(slot));
}

static void fill(void) {
    uint8_t s;
    uint32_t length;
    take(&s, sizeof s);
    take(&length, sizeof length);
    if (s >= SLOTS) stop("no such slot");
    make_slot(&slots[s], length);
    take(bytes_of(s), length);
    if (s == COUNTERS && length != sizeof(struct spireslate_counters)) stop("counters of another length");
}

/* The tables, as numbers of 1, 2 and 8 bytes. */
#define TABLES                                                                                                       \
    bytes_of(RECORDS), slots[RECORDS].length, (uint16_t *)bytes_of(OBJECTS), slots[OBJECTS].length / 2,              \
        (uint64_t *)bytes_of(GROUPS), slots[GROUPS].length / 8
#define OUT bytes_of(OUTPUT), slots[OUTPUT].length

static struct outcome of_writing(struct spireslate_write_answer w) {
    return (struct outcome){.number = w.number, .value = w.bytes};
}

static struct outcome read_file(struct spireslate_counters *counters) {
    struct spireslate_file_answer f = spireslate_read(counters, TABLES, bytes_of(STORED), slots[STORED].length);
    return (struct outcome){.number = f.number, .value = f.index};
}

static struct outcome locate(void) {
    struct spireslate_located l = spireslate_locate(bytes_of(STORED), slots[STORED].length);
    return (struct outcome){
        .number = l.number, .sites = l.sites, .form = l.form, .records = l.records, .value = l.start};
}

static struct outcome enumerate(const struct spireslate_counters *counters, const struct request *r) {
    struct spireslate_groups_answer g = spireslate_groups(
        *counters, TABLES, r->n, (uint16_t)r->line, (uint64_t *)bytes_of(OUTPUT), slots[OUTPUT].length / 8);
    return (struct outcome){.number = g.number, .value = g.count};
}

static struct outcome make_call(const struct request *r) {
    struct spireslate_counters *counters = (struct spireslate_counters *)bytes_of(COUNTERS);
    switch (r->call) {
    case OPEN: return (struct outcome){.number = spireslate_open(counters, TABLES, r->n)};
    case ARRIVE:
        return (struct outcome){
            .number = spireslate_arrive(counters, TABLES, bytes_of(RECORD), slots[RECORD].length)};
    case READ: return read_file(counters);
    case CHECK: return (struct outcome){.number = spireslate_check(*counters, TABLES)};
    case WRITE: return of_writing(spireslate_write(*counters, TABLES, OUT, r->start));
    case LINE: return of_writing(spireslate_line(*counters, TABLES, r->line, OUT, r->start));
    case LIST: return of_writing(spireslate_list(*counters, TABLES, OUT, r->start));
    case LOCATE: return locate();
    case ENUMERATE: return enumerate(counters, r);
    }
    stop("no such call");
    return (struct outcome){0};
}

static int is_touched(const struct slot *slot) {
    size_t behind = GUARD + slot->length;
    return memcmp(slot->memory, slot->before, GUARD) != 0 ||
           memcmp(slot->memory + behind, slot->before + behind, GUARD) != 0;
}

static void give_changes(const struct slot *slot) {
    const uint8_t *now = slot->memory + GUARD, *was = slot->before + GUARD;
    uint32_t first = 0, end = (uint32_t)slot->length, length;
    if (memcmp(now, was, slot->length) == 0) end = 0;
    while (first < end && now[first] == was[first]) first++;
    while (end > first && now[end - 1] == was[end - 1]) end--;
    length = end - first;
    give(&first, sizeof first);
    give(&length, sizeof length);
    give(now + first, length);
}

static void give_outcome(const struct outcome *o) {
    uint8_t touched = 0;
    for (int s = 0; s < SLOTS; s++)
        if (is_touched(&slots[s])) touched |= (uint8_t)(1 << s);
    give(&o->number, sizeof o->number);
    give(&o->sites, sizeof o->sites);
    give(&o->form, sizeof o->form);
    give(&o->records, sizeof o->records);
    give(&o->value, sizeof o->value);
    give(&touched, sizeof touched);
    for (int s = 0; s < SLOTS; s++) give_changes(&slots[s]);
    if (fflush(stdout) != 0) stop("the outcome could not be written");
}

static void call(void) {
    struct request r;
    take(&r.call, sizeof r.call);
    take(&r.n, sizeof r.n);
    take(&r.line, sizeof r.line);
    take(&r.start, sizeof r.start);
    for (int s = 0; s < SLOTS; s++) memcpy(slots[s].before, slots[s].memory, whole(&slots[s]));
    struct outcome o = make_call(&r);
    for (size_t i = 0; i < sizeof padding / sizeof *padding; i++)
        bytes_of(COUNTERS)[padding[i]] = slots[COUNTERS].before[GUARD + padding[i]];
    give_outcome(&o);
}

int main(void) {
    for (int s = 0; s < SLOTS; s++) make_slot(&slots[s], s == COUNTERS ? sizeof(struct spireslate_counters) : 0);
    memset(bytes_of(COUNTERS), 0, sizeof(struct spireslate_counters));
    for (int c; (c = getchar()) != EOF;) {
        if (c == 'F') fill();
        else if (c == 'C') call();
        else stop("a line of the script is neither a filling nor a call");
    }
    return 0;
}
