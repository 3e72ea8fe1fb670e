/* Versions as an author has them before him: the edits that he has applied are read as a drawing of their own, and a
   version's members are those of its line in the list. */
#include "versions.h"

#include <stdio.h>
#include <string.h>

#include "calls.h"

/* Reads the drawing of the edits that a site has applied. */
static void read_seen(struct drawing *d, const struct file *f, unsigned site) {
    static struct file seen;
    file_open(&seen, "seen", f->sites);
    for (unsigned i = 0; i < f->records; i++) {
        const uint8_t *record = file_record(f, i);
        if (f->vectors[site][record[1]] >= record[2] + 256u * record[3]) file_put(&seen, record);
    }
    file_close(&seen);
    plain.read(&d->counters, TABLES(d), seen.bytes, seen.length);
}

/* The members in a line of the box s.q; whether it is one. */
static int read_line(const char *line, unsigned s, unsigned q, struct name *members, unsigned *count) {
    struct name box, one;
    int used = 0;
    *count = 0;
    if (sscanf(line, "%u.%u %n", &box.site, &box.seq, &used) < 2 || box.site != s || box.seq != q) return 0;
    for (line += used; sscanf(line, "%u.%u%n", &one.site, &one.seq, &used) == 2; line += used + (line[used] == '+')) {
        if (*count < SPIRESLATE_MEMBERS) members[*count] = one;
        ++*count;
        if (line[used] != '+') break;
    }
    return 1;
}

unsigned pick_version(const struct file *f, unsigned site, unsigned s, unsigned q, struct name *members) {
    static struct drawing d;
    char line[SPIRESLATE_LINE + 1];
    struct name found[SPIRESLATE_MEMBERS];
    unsigned picked = 0, met = 0, count;
    read_seen(&d, f, site);
    for (size_t i = 1;; i++) {
        struct spireslate_write_answer w =
            plain.line(d.counters, TABLES(&d), i, (uint8_t *)line, SPIRESLATE_LINE, 0);
        if (w.number != SPIRESLATE_DONE) return picked;
        line[w.bytes] = 0;
        /* each of those met so far is as likely as the others */
        if (!read_line(line, s, q, found, &count) || random_below(++met) != 0) continue;
        picked = count <= SPIRESLATE_MEMBERS ? count : 0;
        memcpy(members, found, picked * sizeof *members);
    }
}
