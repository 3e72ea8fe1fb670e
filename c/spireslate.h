/* The calls of Spireslate for a C program on x86-64 Linux: the static library of the crate `call_c_c` has them, which
   `c/library` writes to target/staticlib/libcall_c.a, and each is proved to meet its contract. docs/MANUAL.md says how
   to link them, how to fill a record and what to do on each answer. All lengths and all contents are allowed: every
   input has an answer, and a table, record, file or output that is too short, too long or damaged is refused with its
   number, never read or written outside. What no proof can see is left to the caller: a pointer is not null, also
   where its length is 0; it points to as many elements as the length beside it says, aligned as C aligns them; and
   what a call may write (a pointer that is not const) overlaps nothing else that the call is given. */
#ifndef SPIRESLATE_H
#define SPIRESLATE_H

#include <stddef.h>
#include <stdint.h>

#ifdef __cplusplus
extern "C" {
#endif

/* The answers. A call that gives another than 0 leaves counters, tables and output as they were; only a file with a
   refused record leaves an empty drawing. */
enum {
    SPIRESLATE_DONE = 0,
    SPIRESLATE_MALFORMED = 1,     /* the record is not one: its length, or a field */
    SPIRESLATE_REPEATED = 2,      /* as many edits of that site are held already */
    SPIRESLATE_EARLY = 3,         /* an edit that it has seen is not held yet */
    SPIRESLATE_TORN = 4,          /* an edit that it has seen has seen more of some site */
    SPIRESLATE_ASTRAY = 5,        /* the target is not a Create that the edit has seen; or no such Create is held */
    SPIRESLATE_FULL = 6,          /* 256 records, 64 objects or 64 Sets of the object are held */
    SPIRESLATE_CROWDED = 7,       /* the object would have, or has, more than 32 versions */
    SPIRESLATE_UNSOUND = 8,       /* the tables are unsound, or not of their lengths */
    SPIRESLATE_BAD_SITES = 9,     /* N is not 1 to 16, or to 8 in an old block */
    SPIRESLATE_BAD_FILE = 10,     /* the file is over the limit, or its trailer is unfit */
    SPIRESLATE_NO_ROOM = 11,      /* the output has no room at the start given, or is not 32 groups long */
    SPIRESLATE_NO_LINE = 12,      /* the list has no line of that number */
    SPIRESLATE_NO_VERSION = 16,   /* a limited Set lists no version of its object among the edits that it has seen */
    SPIRESLATE_TOO_MANY_SETS = 18 /* the object has more than 20 Sets */
};

/* The kinds of edit records. A Set shows in every version of its object that it is not in conflict with; a limited Set
   in one version that its author had before him, and in those that come of it. The last two are layer edits: to-top
   puts a box above the others in the list; to-bottom is withdrawn, and is taken and stored without an effect on the
   list. */
enum {
    SPIRESLATE_CREATE = 1,
    SPIRESLATE_SET = 2,
    SPIRESLATE_LIMITED = 3,
    SPIRESLATE_TOP = 4,
    SPIRESLATE_BOTTOM = 5
};

/* Lengths: of the three tables and of an output of groups in elements, all others in bytes. A limited Set has behind
   the bytes of a Set the count of its members (2 bytes), two zero bytes, and each member: site, zero, sequence number
   (2). The members are the edits that tell the version from the others, as its line of the list has them behind the
   Create, but that only conflicts between edits that the author has seen count; they ascend by site, then by sequence
   number. A limited Set without members is no plain Set: it names the one version of an object of which the author has
   seen nothing in dispute. */
enum {
    SPIRESLATE_SITES = 16,             /* entries of a vector, and the most sites of a drawing */
    SPIRESLATE_RECORD = 44,            /* an edit record, but a limited Set */
    SPIRESLATE_LIMITED_RECORD = 48,    /* a limited Set, and SPIRESLATE_MEMBER more for each of its members */
    SPIRESLATE_MEMBER = 4,             /* a member of a limited Set */
    SPIRESLATE_MEMBERS = 16,           /* how many members a limited Set has at most */
    SPIRESLATE_PLACE = 112,            /* a place of the records' table, which has room for the longest record */
    SPIRESLATE_RECORDS_LENGTH = 28672, /* the records' table: 256 places */
    SPIRESLATE_OBJECTS_LENGTH = 192,   /* the objects' table: 64 entries of 3 numbers */
    SPIRESLATE_GROUPS_LENGTH = 2048,   /* the groups' table: 64 rows of 32 groups */
    SPIRESLATE_ROW = 32,               /* the groups of one object, and the output for them */
    SPIRESLATE_TRAILER = 8,            /* the trailer of a block */
    SPIRESLATE_BLOCK = 28680,          /* no block is longer: 256 of the longest records and the trailer */
    SPIRESLATE_FILE_LIMIT = 65536,     /* the longest file that is read */
    SPIRESLATE_LINE = 874,             /* no line of the list is longer */
    SPIRESLATE_LIST = 1790826          /* no list is longer: 2,049 lines */
};

/* The form of a block, which is the fourth byte of its trailer. Blocks are written in the long form, and read in both.
   Only a stored block has old records, which are Creates and Sets: one that arrives is a long one, and so is one in
   the table. */
enum {
    SPIRESLATE_OLD_FORM = 0,
    SPIRESLATE_LONG_FORM = 1,
    SPIRESLATE_OLD_SITES = 8,  /* entries of an old record's vector, and the most sites of an old block */
    SPIRESLATE_OLD_RECORD = 28 /* an old record, in bytes: the same fields in the same order */
};

/* The counters of a drawing, which the caller keeps beside its three tables: N, the records and the objects held, how
   many edits of each site are held, and the sum of all words of the records held, which wraps at 32 bits: different
   sums mean different edits, equal sums promise nothing. The tables are: the records in arrival order, each at the
   front of its place with zeros behind; for each object the place of its Create among the records, its number of Sets,
   limited ones among them, and its number of groups; and for each object 32 groups, where bit i stands for the
   object's i-th Set. What is not used is zero. */
struct spireslate_counters {
    uint8_t sites;
    uint16_t records;
    uint16_t objects;
    uint16_t held[SPIRESLATE_SITES];
    uint32_t sum;
};

/* The answer to a file that is read, and the index from 0 of the refused record; 0 where none is refused. */
struct spireslate_file_answer {
    uint8_t number;
    size_t index;
};

/* The answer to a call that writes, and the number of bytes written; 0 when refused. */
struct spireslate_write_answer {
    uint8_t number;
    size_t bytes;
};

/* The answer to a call that gives groups, and how many there are; 0 when refused. */
struct spireslate_groups_answer {
    uint8_t number;
    size_t count;
};

/* The answer to a file in which a block is located, N, the block's form, the number of records, and where the first
   record starts in the file; the last four are 0 when refused. */
struct spireslate_located {
    uint8_t number;
    uint8_t sites;
    uint8_t form;
    uint16_t records;
    size_t start;
};

/* Opens an empty drawing of n sites: 8 for lengths alone, then 9. What stood in the tables does not matter. */
uint8_t spireslate_open(struct spireslate_counters *counters, uint8_t *records, size_t records_length,
                        uint16_t *objects, size_t objects_length, uint64_t *groups, size_t groups_length, uint8_t n);

/* Takes an edit record: 8, then 1 to 5, 16, 6 and 7, the first that applies. A record that is not as long as its kind,
   or a limited Set's count of members, says is 1. */
uint8_t spireslate_arrive(struct spireslate_counters *counters, uint8_t *records, size_t records_length,
                          uint16_t *objects, size_t objects_length, uint64_t *groups, size_t groups_length,
                          const uint8_t *record, size_t record_length);

/* Reads a file whose last bytes are a block, of either form, into the tables: 8 for lengths alone, 10, 9, then the
   answer to the first record that is refused, 1 to 7 or 16, in which case the tables are left as an empty drawing of
   the file's sites. */
struct spireslate_file_answer spireslate_read(struct spireslate_counters *counters, uint8_t *records,
                                              size_t records_length, uint16_t *objects, size_t objects_length,
                                              uint64_t *groups, size_t groups_length, const uint8_t *file,
                                              size_t file_length);

/* The separate check: 0 exactly when the tables are what their records give from an empty drawing, else 8. */
uint8_t spireslate_check(struct spireslate_counters counters, const uint8_t *records, size_t records_length,
                         const uint16_t *objects, size_t objects_length, const uint64_t *groups,
                         size_t groups_length);

/* Writes the block, in the long form, into the output from the start on: 8, then 11. Bytes before and after the block
   stay. */
struct spireslate_write_answer spireslate_write(struct spireslate_counters counters, const uint8_t *records,
                                                size_t records_length, const uint16_t *objects,
                                                size_t objects_length, const uint64_t *groups, size_t groups_length,
                                                uint8_t *out, size_t out_length, size_t start);

/* Puts one line of the list, line 0 or that of a version, into the output from the start on, with its newline: 8, 12,
   then 11. Bytes before and after the line stay. */
struct spireslate_write_answer spireslate_line(struct spireslate_counters counters, const uint8_t *records,
                                               size_t records_length, const uint16_t *objects,
                                               size_t objects_length, const uint64_t *groups, size_t groups_length,
                                               size_t line, uint8_t *out, size_t out_length, size_t start);

/* Puts all lines into the output from the start on: 8, then 11 where they have no room there. Bytes before and after
   the lines stay. Where SPIRESLATE_LIST bytes have room the lines are formed once; else they are measured first. */
struct spireslate_write_answer spireslate_list(struct spireslate_counters counters, const uint8_t *records,
                                               size_t records_length, const uint16_t *objects,
                                               size_t objects_length, const uint64_t *groups, size_t groups_length,
                                               uint8_t *out, size_t out_length, size_t start);

/* The second engine, to compare with: works out the groups of the object whose Create has this site and this sequence
   number from the conflicts of its Sets, with no arrival order, and puts them into the output in ascending order, with
   zeros after. 8; 11 unless the output is SPIRESLATE_ROW long; 5 when no such Create is held; 18 above 20 Sets; 7 when
   there are more than 32 groups, which is so in sound tables alone that are not true. In true tables the output is the
   object's row of the groups' table. */
struct spireslate_groups_answer spireslate_groups(struct spireslate_counters counters, const uint8_t *records,
                                                  size_t records_length, const uint16_t *objects,
                                                  size_t objects_length, const uint64_t *groups,
                                                  size_t groups_length, uint8_t site, uint16_t seq, uint64_t *out,
                                                  size_t out_length);

/* Locates the block of a file: 10, then 9. Its records stand one after another in the file, from the start on, each of
   SPIRESLATE_RECORD bytes, or of SPIRESLATE_OLD_RECORD in the old form; in the long form a limited Set has
   SPIRESLATE_LIMITED_RECORD bytes and SPIRESLATE_MEMBER more for each member that it counts. */
struct spireslate_located spireslate_locate(const uint8_t *file, size_t file_length);

#ifdef __cplusplus
}
#endif

#endif
