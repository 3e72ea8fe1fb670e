/* The calls of one implementation, so that both are compared and timed through the same code. */
#ifndef CALLS_H
#define CALLS_H

#include "spireslate.h"

struct calls {
    uint8_t (*open)(struct spireslate_counters *, uint8_t *, size_t, uint16_t *, size_t, uint64_t *, size_t, uint8_t);
    uint8_t (*arrive)(struct spireslate_counters *, uint8_t *, size_t, uint16_t *, size_t, uint64_t *, size_t,
                      const uint8_t *, size_t);
    struct spireslate_file_answer (*read)(struct spireslate_counters *, uint8_t *, size_t, uint16_t *, size_t,
                                          uint64_t *, size_t, const uint8_t *, size_t);
    uint8_t (*check)(struct spireslate_counters, const uint8_t *, size_t, const uint16_t *, size_t, const uint64_t *,
                     size_t);
    struct spireslate_write_answer (*write)(struct spireslate_counters, const uint8_t *, size_t, const uint16_t *,
                                            size_t, const uint64_t *, size_t, uint8_t *, size_t, size_t);
    struct spireslate_write_answer (*line)(struct spireslate_counters, const uint8_t *, size_t, const uint16_t *,
                                           size_t, const uint64_t *, size_t, size_t, uint8_t *, size_t, size_t);
    struct spireslate_write_answer (*list)(struct spireslate_counters, const uint8_t *, size_t, const uint16_t *,
                                           size_t, const uint64_t *, size_t, uint8_t *, size_t, size_t);
    struct spireslate_groups_answer (*groups)(struct spireslate_counters, const uint8_t *, size_t, const uint16_t *,
                                              size_t, const uint64_t *, size_t, uint8_t, uint16_t, uint64_t *, size_t);
};

/* Those of the library, and the plain ones. */
extern const struct calls proved, plain;

#endif
