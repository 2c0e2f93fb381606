/* The formula rows of the paper's record, which both examples take. */
#ifndef PAPER_H
#define PAPER_H

#include <stdint.h>

#define COUNT(table) (sizeof(table) / sizeof((table)[0]))

/* kind a b c: some p_i for i from 2 to n, and no p_i for i from 2 to n. */
static const int32_t schema[] = {
    2, 0, 2, 0,
    3, 0, 2, 0,
    7, 0, 2, 0,
    6, 1, 2, 0,
    4, 2, 3, 0,
};

static const int32_t proof[] = {
    7, 0, 2, 1,
    2, 0, 1, 0,
    6, 1, 2, 1,
    3, 0, 1, 0,
};

#endif
