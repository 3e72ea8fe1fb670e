/* How much stack each call of the library uses: it is made on a stack of its own, which is painted first, and the bytes
   from the stack pointer with which it is called down to the deepest one that it wrote are counted. Each call is made
   on the fullest drawings, on ones that it refuses, and on unsound tables; the largest count is printed. With arguments
   NAME FIGURE .. a call that uses more than its figure, or has none, fails. */
#include <stdio.h>
#include <stdlib.h>
#include <string.h>

#include "inputs.h"

enum { PAINTED = 1 << 20, MARGIN = 4096, FILES = 9, ROW = 32 };

static _Alignas(64) uint8_t painted[PAINTED];
static uint8_t *stack_pointer; /* with which the call was made */

static struct file files[FILES];
static struct drawing work;
static uint8_t output[SPIRESLATE_LIST];
static uint64_t row[ROW];
static const uint8_t *input;
static size_t input_length, line;

/* Each of these makes one call. It is compiled so that a function's stack pointer stays where it is from its first
   instruction to its last, so that the one told here is the one that the call is made with. */
#define TOLD __asm__ volatile("mov %%rsp, %0" : "=m"(stack_pointer))

static void make_open(void) { TOLD; spireslate_open(&work.counters, TABLES(&work), (uint8_t)line); }

static void make_locate(void) { TOLD; spireslate_locate(input, input_length); }

static void make_arrive(void) { TOLD; spireslate_arrive(&work.counters, TABLES(&work), input, input_length); }

static void make_read(void) { TOLD; spireslate_read(&work.counters, TABLES(&work), input, input_length); }

static void make_check(void) { TOLD; spireslate_check(work.counters, TABLES(&work)); }

static void make_write(void) { TOLD; spireslate_write(work.counters, TABLES(&work), output, sizeof output, 1); }

static void make_line(void) { TOLD; spireslate_line(work.counters, TABLES(&work), line, output, sizeof output, 0); }

static void make_groups(void) { TOLD; spireslate_groups(work.counters, TABLES(&work), 0, 1, row, ROW); }

static void make_list(void) { TOLD; spireslate_list(work.counters, TABLES(&work), output, sizeof output, 0); }

static struct call {
    const char *name;
    void (*make)(void);
    size_t most;
} calls[] = {
    {"spireslate_open", make_open, 0},     {"spireslate_locate", make_locate, 0}, {"spireslate_arrive", make_arrive, 0},
    {"spireslate_write", make_write, 0},   {"spireslate_read", make_read, 0},     {"spireslate_line", make_line, 0},
    {"spireslate_check", make_check, 0},   {"spireslate_list", make_list, 0},     {"spireslate_groups", make_groups, 0},
};

enum { OPEN, LOCATE, ARRIVE, WRITE, READ, LINE, CHECK, LIST, GROUPS, CALLS };

/* Runs f with the stack pointer near the top of the painted stack. */
static __attribute__((noinline)) void on_painted(void (*f)(void)) {
    uint8_t *top = painted + PAINTED - MARGIN;
    __asm__ volatile("mov %%rsp, %%rbx\n\tmov %0, %%rsp\n\tcall *%1\n\tmov %%rbx, %%rsp"
                     : "+S"(top), "+D"(f)
                     :
                     : "rax", "rbx", "rcx", "rdx", "r8", "r9", "r10", "r11", "memory", "cc");
}

/* Makes a call twice on the drawing as it is now, over two colours: a byte that is written has another value than at
   least one of them. */
static void measure(unsigned which) {
    static struct drawing kept;
    kept = work;
    for (unsigned colour = 0; colour < 2; colour++) {
        uint8_t paint = colour == 0 ? 0xA5 : 0x5A;
        work = kept;
        memset(painted, paint, sizeof painted);
        on_painted(calls[which].make);
        size_t at = 0;
        while (painted[at] == paint) at++;
        size_t used = (size_t)(stack_pointer - (painted + at));
        if (calls[which].most < used) calls[which].most = used;
    }
    work = kept;
}

static void measure_views(void) {
    static const size_t lines[] = {0, 1, 32, 64, 100000};
    measure(CHECK);
    measure(WRITE);
    measure(LIST);
    measure(GROUPS);
    for (unsigned i = 0; i < sizeof lines / sizeof *lines; i++) {
        line = lines[i];
        measure(LINE);
    }
}

/* Ends the program unless the input is refused with this number. */
static void must_refuse(unsigned number, const char *what) {
    if (spireslate_arrive(&work.counters, TABLES(&work), input, input_length) == number) return;
    printf("bench/stack: %s is not refused with %u\n", what, number);
    exit(1);
}

/* Has the records of a file but the last one arrive, and the last one stand as the input. */
static void take_but_last(const struct file *f) {
    spireslate_open(&work.counters, TABLES(&work), (uint8_t)f->sites);
    for (unsigned i = 0; i < f->records; i++) {
        input = file_record(f, i), input_length = record_length(input);
        if (i + 1 < f->records) spireslate_arrive(&work.counters, TABLES(&work), input, input_length);
    }
}

/* The input, a limited Set that would be taken, with a member in the place of its last one that is not held. */
static void measure_unnamed(void) {
    static uint8_t record[SPIRESLATE_PLACE];
    memcpy(record, input, input_length);
    record[input_length - 1] = 255;
    input = record;
    must_refuse(SPIRESLATE_NO_VERSION, "a member that is not held");
    measure(ARRIVE);
}

/* Every call on the drawing of a file, whose old block is read too where it has one: whole, one record short with that
   record arriving, full, and with a damage in each table, at its front and at its end. */
static void measure_file(const struct file *f) {
    static struct drawing whole;
    static struct old_file old;
    if (file_has_old(f)) {
        file_shorten(&old, f);
        input = old.bytes, input_length = old.length;
        measure(LOCATE);
        measure(READ);
    }
    input = f->bytes, input_length = f->length;
    measure(LOCATE);
    measure(READ);
    spireslate_read(&work.counters, TABLES(&work), f->bytes, f->length);
    whole = work;
    measure_views();
    input = file_record(f, f->records - 1), input_length = record_length(input);
    measure(ARRIVE);
    take_but_last(f);
    measure(ARRIVE);
    if (*input == SPIRESLATE_LIMITED) measure_unnamed();
    for (unsigned damage = 0; damage < 7; damage++) {
        work = whole;
        unsigned last = work.counters.objects - 1u;
        switch (damage) {
        case 0: work.counters.held[SPIRESLATE_SITES - 1]++; break;
        case 1: work.records[(work.counters.records - 1u) * SPIRESLATE_PLACE] = 9; break;
        case 2: work.objects[3 * last + 1]++; break;
        case 3: work.groups[(size_t)ROW * last] = 0; break;
        case 4: work.groups[SPIRESLATE_GROUPS_LENGTH - 1] = 1; break;
        case 5: work.records[work.counters.records * SPIRESLATE_PLACE - 1] = 1; break;
        default: work.groups[(size_t)ROW * last + work.objects[3 * last + 2] - 1] ^= 1;
        }
        measure(ARRIVE);
        measure_views();
    }
}

/* A dispute on a sixth key, which is refused with 7: its last record arrives, and its file is read. */
static void measure_crowded(void) {
    static struct file f;
    file_open(&f, "crowded", SPIRESLATE_SITES);
    file_create(&f, 0);
    file_sync_all(&f);
    for (unsigned i = 0; i < 12; i++) file_set(&f, 1 + i % 2, 0, 1, i / 2, 1000000 * (1 + i % 2));
    file_close(&f);
    input = f.bytes, input_length = f.length;
    measure(READ);
    take_but_last(&f);
    must_refuse(SPIRESLATE_CROWDED, "the sixth pair");
    measure(ARRIVE);
}

/* Boxes of 20 Sets: the search goes 20 calls deep. */
static void measure_boxes(void) {
    static void (*const makers[])(struct file *) = {make_calm,  make_row,  make_sixteen,
                                                    make_pairs, make_hard, make_branches};
    static struct file f;
    for (unsigned i = 0; i < sizeof makers / sizeof *makers; i++) {
        makers[i](&f);
        hold_untrue(&work, &f);
        measure(GROUPS);
    }
}

static size_t figure_of(const char *name, int many, char **given) {
    for (int i = 0; i + 1 < many; i += 2)
        if (strcmp(given[i], name) == 0) return (size_t)strtoul(given[i + 1], NULL, 10);
    return 0;
}

int main(int argc, char **argv) {
    unsigned passed = 0, failed = 0;
    make_many(&files[0]);
    make_settled(&files[1]);
    make_disputed(&files[2]);
    make_many_wide(&files[3]);
    make_wide(&files[4]);
    make_layers(&files[5]);
    make_split(&files[6]);
    make_split_boxes(&files[7]);
    make_recoloured(&files[8]);
    for (line = 0; line <= SPIRESLATE_SITES + 1; line++) measure(OPEN);
    for (unsigned i = 0; i < FILES; i++) measure_file(&files[i]);
    measure_crowded();
    measure_boxes();
    for (unsigned i = 0; i < CALLS; i++) {
        size_t figure = figure_of(calls[i].name, argc - 1, argv + 1);
        int right = calls[i].most <= figure;
        printf("%-18s %6zu bytes of stack, and the manual says %zu%s\n", calls[i].name, calls[i].most, figure,
               right ? "" : ": FAILED");
        if (right) passed++;
        else failed++;
    }
    printf("%u passed, %u failed\n", passed, failed);
    return failed != 0;
}
