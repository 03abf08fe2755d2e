/* Lists that are no form, and shapes of no matrix. */
#include "faults.h"

/* The length, then the words. */
static const uint32_t FORMS[BAD_FORMS][6] = {
    {0},
    {2, 0x20020001, 0x20000301}, /* the head's kind, letters, characters, unnamed bits */
    {1, 0x10020000},
    {2, 0x10000001, 0x20000301},
    {2, 0x10600001, 0x20000301},
    {2, 0x10020201, 0x20000301},
    {2, 0x11020001, 0x20000301},
    {2, 0x10020002, 0x20000301}, /* a letter too few, and one too many */
    {3, 0x10020001, 0x20000301, 0x20000301},
    {2, 0x10020001, 0x30000301}, /* a letter's kind, label, unnamed bits */
    {2, 0x10020001, 0x20000300},
    {2, 0x10020001, 0x20000303},
    {2, 0x10020001, 0x20000701},
    {3, 0x10020001, 0x20000301, 0x00000101}, /* an arc's kind, source, target, unnamed bits */
    {3, 0x10020001, 0x20000301, 0x30000001},
    {3, 0x10020001, 0x20000301, 0x30000201},
    {3, 0x10020001, 0x20000301, 0x30000100},
    {3, 0x10020001, 0x20000301, 0x30000102},
    {3, 0x10020001, 0x20000301, 0x30010101},
    {4, 0x10020001, 0x20000301, 0x30000101, 0x30000101}, /* an arc twice, and arcs out of order */
    {5, 0x10020002, 0x20000301, 0x20000202, 0x30000202, 0x30000102},
    {5, 0x10020002, 0x20000301, 0x20000202, 0x30000202, 0x30000201},
};

struct words bad_form(size_t n)
{
    return (struct words){FORMS[n] + 1, FORMS[n][0]};
}

const size_t BAD_SHAPE[BAD_SHAPES][3] = {
    {6, 2, 2}, /* the width, also without columns, and where the product is right */
    {6, 4, 2},
    {6, 2, 3},
    {0, 2, 0},
    {0, 0, 0},
    {5, 3, 2}, /* the list */
    {7, 3, 2},
    {6, 3, 1},
    {6, 3, 3},
    {0, 3, 1},
    {3, 3, 0},
    {768, 3, 256}, /* the columns */
    {0, SIZE_MAX, 0}, /* numbers whose product does not fit, or fits only modulo 2^64 */
    {6, SIZE_MAX, 2},
    {0, 3, SIZE_MAX},
    {2, 3, SIZE_MAX / 3 + 1},
    {1, SIZE_MAX, SIZE_MAX},
};
