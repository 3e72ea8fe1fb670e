/* The calls of c/spireslate.h once more, written plainly in C for speed and proved by nobody: what the calls of the
   library are timed beside. Each has the signature, the answers and the effects of the call of that name there. */
#ifndef PLAIN_H
#define PLAIN_H

#include "spireslate.h"

uint8_t plain_open(struct spireslate_counters *counters, uint8_t *records, size_t records_length, uint16_t *objects,
                   size_t objects_length, uint64_t *groups, size_t groups_length, uint8_t n);

uint8_t plain_arrive(struct spireslate_counters *counters, uint8_t *records, size_t records_length,
                     uint16_t *objects, size_t objects_length, uint64_t *groups, size_t groups_length,
                     const uint8_t *record, size_t record_length);

struct spireslate_file_answer plain_read(struct spireslate_counters *counters, uint8_t *records,
                                         size_t records_length, uint16_t *objects, size_t objects_length,
                                         uint64_t *groups, size_t groups_length, const uint8_t *file,
                                         size_t file_length);

uint8_t plain_check(struct spireslate_counters counters, const uint8_t *records, size_t records_length,
                    const uint16_t *objects, size_t objects_length, const uint64_t *groups, size_t groups_length);

struct spireslate_write_answer plain_write(struct spireslate_counters counters, const uint8_t *records,
                                           size_t records_length, const uint16_t *objects, size_t objects_length,
                                           const uint64_t *groups, size_t groups_length, uint8_t *out,
                                           size_t out_length, size_t start);

struct spireslate_write_answer plain_line(struct spireslate_counters counters, const uint8_t *records,
                                          size_t records_length, const uint16_t *objects, size_t objects_length,
                                          const uint64_t *groups, size_t groups_length, size_t line, uint8_t *out,
                                          size_t out_length, size_t start);

struct spireslate_write_answer plain_list(struct spireslate_counters counters, const uint8_t *records,
                                          size_t records_length, const uint16_t *objects, size_t objects_length,
                                          const uint64_t *groups, size_t groups_length, uint8_t *out,
                                          size_t out_length, size_t start);

struct spireslate_groups_answer plain_groups(struct spireslate_counters counters, const uint8_t *records,
                                             size_t records_length, const uint16_t *objects, size_t objects_length,
                                             const uint64_t *groups, size_t groups_length, uint8_t site, uint16_t seq,
                                             uint64_t *out, size_t out_length);

#endif
