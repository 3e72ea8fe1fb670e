/* The benchmark: the calls of the library beside the plain ones, in one process and on the same inputs. First every
   answer, table and output of both is compared; then both are timed, in turn and in several rounds of which the best
   counts, and a line is printed for each call and input: the time of each and their ratio. Then, for each of the two
   by itself, how reading a drawing compares with reading one of the same sort that is half as long. */
#include <stdio.h>
#include <string.h>
#include <time.h>

#include "calls.h"
#include "compare.h"
#include "inputs.h"

enum { FILES = 12, BOXES = 6, HALVES = 3, DRAWINGS = 32, ARRIVALS = 100, ROUNDS = 9, BATCH_MS = 20, GROUPS = 32 };

/* What a task is done on, and what it may change. A task undoes what it changed, so that it can be done again. */
struct scene {
    struct file file;
    struct old_file old; /* of no length where the drawing has no old form */
    struct drawing whole, one_short, work;
    size_t last_line;
    uint8_t further[SPIRESLATE_RECORD]; /* a record more than the file's */
};

typedef void task(const struct calls *, struct scene *);

static const double BAR = 1.5; /* no ratio is to be above it */

static struct scene scenes[FILES], boxes[BOXES], halves[HALVES];
static uint8_t output[SPIRESLATE_LIST];

static void do_read(const struct calls *c, struct scene *s) {
    c->read(&s->work.counters, TABLES(&s->work), s->file.bytes, s->file.length);
}

static void do_read_old(const struct calls *c, struct scene *s) {
    c->read(&s->work.counters, TABLES(&s->work), s->old.bytes, s->old.length);
}

/* The file's last record, which is a Set, arrives after all others. What it changes is put back: the counters, its
   place, and its object's entry and row. */
static void do_arrive(const struct calls *c, struct scene *s) {
    struct drawing *d = &s->one_short, *w = &s->whole;
    size_t at = (size_t)d->counters.records * SPIRESLATE_PLACE;
    size_t o = (size_t)w->counters.objects - 1;
    struct spireslate_counters counters = d->counters;
    uint64_t row[GROUPS];
    uint16_t entry[3];
    memcpy(entry, d->objects + 3 * o, sizeof entry);
    memcpy(row, d->groups + GROUPS * o, sizeof row);
    c->arrive(&d->counters, TABLES(d), w->records + at, record_length(w->records + at));
    d->counters = counters;
    memset(d->records + at, 0, SPIRESLATE_PLACE);
    memcpy(d->objects + 3 * o, entry, sizeof entry);
    memcpy(d->groups + GROUPS * o, row, sizeof row);
}

static void do_refuse(const struct calls *c, struct scene *s) {
    c->arrive(&s->whole.counters, TABLES(&s->whole), s->further, SPIRESLATE_RECORD);
}

static void do_check(const struct calls *c, struct scene *s) { c->check(s->whole.counters, TABLES(&s->whole)); }

static void do_write(const struct calls *c, struct scene *s) {
    c->write(s->whole.counters, TABLES(&s->whole), output, sizeof output, 0);
}

static void do_line(const struct calls *c, struct scene *s) {
    c->line(s->whole.counters, TABLES(&s->whole), s->last_line, output, sizeof output, 0);
}

static void do_head(const struct calls *c, struct scene *s) {
    c->line(s->whole.counters, TABLES(&s->whole), 0, output, sizeof output, 0);
}

static void do_list(const struct calls *c, struct scene *s) {
    c->list(s->whole.counters, TABLES(&s->whole), output, sizeof output, 0);
}

static void do_groups(const struct calls *c, struct scene *s) {
    static uint64_t row[SPIRESLATE_ROW];
    c->groups(s->whole.counters, TABLES(&s->whole), 0, 1, row, SPIRESLATE_ROW);
}

/* A file, in both forms where it has an old one. */
static void set_file(struct scene *s, void (*make)(struct file *)) {
    make(&s->file);
    if (file_has_old(&s->file)) file_shorten(&s->old, &s->file);
    compare_file(&s->file);
}

/* And the tables before and after its last record, and a record that finds them full. */
static void set_scene(struct scene *s, void (*make)(struct file *)) {
    set_file(s, make);
    struct file short_file = s->file, long_file = s->file;
    short_file.records--;
    file_close(&short_file);
    plain.read(&s->whole.counters, TABLES(&s->whole), s->file.bytes, s->file.length);
    plain.read(&s->one_short.counters, TABLES(&s->one_short), short_file.bytes, short_file.length);
    for (unsigned o = 0; o < s->whole.counters.objects; o++) s->last_line += s->whole.objects[3 * o + 2];
    long_file.records = 0;
    file_sync_all(&long_file);
    memcpy(s->further, file_set(&long_file, 0, 0, 1, 0, 0), SPIRESLATE_RECORD);
}

/* Whether the tasks on a drawing are what their lines say: what the last record changes is undone, one more is refused
   with 6. */
static int is_set(struct scene *s, const struct calls *c) {
    static struct drawing before;
    before = s->one_short;
    do_arrive(c, s);
    if (!is_same_drawing(&before, &s->one_short)) return 0;
    return c->arrive(&s->whole.counters, TABLES(&s->whole), s->further, SPIRESLATE_RECORD) == SPIRESLATE_FULL;
}

/* The processor's time for a task done so many times, in seconds. */
static double time_of(task *t, const struct calls *c, struct scene *s, unsigned long times) {
    clock_t start = clock();
    for (unsigned long i = 0; i < times; i++) t(c, s);
    return (double)(clock() - start) / CLOCKS_PER_SEC;
}

/* How many times the task is done in a batch, so that the clock's grain does not show. */
static unsigned long times_for(task *t, const struct calls *c, struct scene *s) {
    unsigned long times = 1;
    while (time_of(t, c, s, times) < BATCH_MS / 1000.0) times *= 2;
    return times;
}

/* The best time of each for a task, in microseconds. Both are timed in turn. */
struct times {
    double proved, plain;
};

static struct times times_of(task *t, struct scene *s) {
    unsigned long times_a = times_for(t, &proved, s), times_b = times_for(t, &plain, s);
    struct times best = {1e9, 1e9};
    for (unsigned round = 0; round < ROUNDS; round++) {
        double a = time_of(t, &proved, s, times_a) / (double)times_a * 1e6;
        double b = time_of(t, &plain, s, times_b) / (double)times_b * 1e6;
        if (a < best.proved) best.proved = a;
        if (b < best.plain) best.plain = b;
    }
    return best;
}

/* Prints the times for a task, and gives their ratio. */
static double measure(const char *call, task *t, struct scene *s) {
    struct times best = times_of(t, s);
    double ratio = best.proved / best.plain;
    printf("%-22s %-26s %12.2f %12.2f %8.2f\n", call, s->file.name, best.proved, best.plain, ratio);
    fflush(stdout);
    return ratio;
}

/* Prints by how much longer each takes to read a drawing than to read half of it. */
static void measure_growth(const char *call, task *t, struct scene *whole, struct scene *half) {
    struct times a = times_of(t, whole), b = times_of(t, half);
    printf("%-22s %-26s %12.2f %12.2f\n", call, whole->file.name, a.proved / b.proved, a.plain / b.plain);
    fflush(stdout);
}

/* The name of a drawing, and line 0 of its list. */
static void print_drawing(const struct scene *s) {
    struct spireslate_write_answer w = plain.line(s->whole.counters, TABLES(&s->whole), 0, output, sizeof output, 0);
    printf("%-26s %.*s", s->file.name, (int)w.bytes, (const char *)output);
}

static const struct {
    const char *name;
    task *task;
} tasks[] = {
    {"read the file", do_read},         {"read the old file", do_read_old}, {"take the last record", do_arrive},
    {"refuse one more (6)", do_refuse}, {"the whole list", do_list},        {"the last line", do_line},
    {"line 0", do_head},                {"the check", do_check},            {"write the block", do_write},
};

static void (*const makers[FILES])(struct file *) = {
    make_many,  make_settled,     make_disputed,   make_many_wide,    make_wide,          make_layers,
    make_split, make_split_boxes, make_recoloured, make_settled_full, make_disputed_full, make_undisputed,
};

/* Drawings half as long as one of those, with as many versions of a box. */
static const struct {
    unsigned whole;
    void (*make)(struct file *);
} half_makers[HALVES] = {{0, make_half_many}, {3, make_half_many_wide}, {11, make_half_undisputed}};

/* Boxes whose groups are worked out with no arrival order, and the answer. */
static const struct {
    void (*make)(struct file *);
    unsigned answer;
} box_makers[BOXES] = {
    {make_calm, SPIRESLATE_DONE},     {make_row, SPIRESLATE_DONE},     {make_sixteen, SPIRESLATE_DONE},
    {make_pairs, SPIRESLATE_CROWDED}, {make_hard, SPIRESLATE_CROWDED}, {make_branches, SPIRESLATE_DONE},
};

static void set_box(struct scene *s, unsigned which) {
    box_makers[which].make(&s->file);
    hold_untrue(&s->whole, &s->file);
    compare_box(&s->whole, box_makers[which].answer);
}

/* Makes and compares all drawings; whether they are as they should be. */
static int set_all(void) {
    for (unsigned i = 0; i < FILES; i++) {
        set_scene(&scenes[i], makers[i]);
        if (is_set(&scenes[i], &proved) && is_set(&scenes[i], &plain)) continue;
        printf("the drawing of %s is not as it should be\n", scenes[i].file.name);
        return 0;
    }
    for (unsigned i = 0; i < BOXES; i++) set_box(&boxes[i], i);
    for (unsigned i = 0; i < HALVES; i++) set_file(&halves[i], half_makers[i].make);
    compare_objects();
    compare_random(DRAWINGS, ARRIVALS);
    return 1;
}

static void measure_halves(void) {
    printf("\n%-22s %-26s %12s %12s\n", "256 to 128 records", "drawing", "proved", "plain");
    for (unsigned i = 0; i < HALVES; i++) {
        struct scene *whole = &scenes[half_makers[i].whole];
        measure_growth("read the file", do_read, whole, &halves[i]);
        if (whole->old.length != 0) measure_growth("read the old file", do_read_old, whole, &halves[i]);
    }
}

int main(void) {
    unsigned above = 0, lines = 0;
    if (!set_all()) return 1;
    printf("Every answer, table and output of both implementations is the same. The drawings:\n\n");
    for (unsigned i = 0; i < FILES; i++) print_drawing(&scenes[i]);
    printf("\n%-22s %-26s %12s %12s %8s\n", "call", "drawing", "proved, us", "plain, us", "ratio");
    for (unsigned t = 0; t < sizeof tasks / sizeof *tasks; t++) {
        for (unsigned i = 0; i < FILES; i++) {
            if (tasks[t].task == do_read_old && scenes[i].old.length == 0) continue;
            if (measure(tasks[t].name, tasks[t].task, &scenes[i]) > BAR) above++;
            lines++;
        }
    }
    for (unsigned i = 0; i < BOXES; i++, lines++)
        if (measure("the second engine", do_groups, &boxes[i]) > BAR) above++;
    measure_halves();
    printf("\n%u of %u lines have a ratio above %.1f.\n", above, lines, BAR);
    return 0;
}
