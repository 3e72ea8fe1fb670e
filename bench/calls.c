/* The two implementations by their calls. */
#include "calls.h"
#include "plain.h"

const struct calls proved = {spireslate_open,  spireslate_arrive, spireslate_read, spireslate_check,
                             spireslate_write, spireslate_line,   spireslate_list, spireslate_groups};

const struct calls plain = {plain_open,  plain_arrive, plain_read, plain_check,
                            plain_write, plain_line,   plain_list, plain_groups};
