/* Compare: lines by hand, every refusal from the first form, from the second and from both, all faults together, the largest input. */
#include "tests.h"

#include "faults.h"
#include "kavurehy.h"
#include "rooms.h"

/* Two forms over a matrix, and the first price less the second. */
static void differ(struct words first, struct words second, struct words costs, int32_t difference)
{
    struct line line = line_of_pair(first, second, costs.first, costs.length / (characters_of(first) + 1));
    compares(first, second, line, apart(line, difference));
}

/* One of the forms, or both, have no reading. */
static void unread(struct words first, struct words second, struct words costs)
{
    struct line line = line_of_pair(first, second, costs.first, costs.length / (characters_of(first) + 1));
    compares(first, second, line, no_comparison(line));
}

/* The labels FL and FR over the alphabet FLR: read as FL by much, by little, neither; and a line with FL alone, since R is barred. */
static void faces(void)
{
    struct words left = WORDS(0x10030002, 0x20000101, 0x20000202, 0x30000102);
    struct words right = WORDS(0x10030002, 0x20000101, 0x20000203, 0x30000102);
    differ(left, right, WORDS(9, 1, 9, 9, 9, 9, 2, 64), -62);
    differ(left, right, WORDS(9, 1, 9, 9, 9, 9, 2, 3), -1);
    differ(left, right, WORDS(9, 1, 9, 9, 9, 9, 2, 2), 0);
    differ(left, right, WORDS(9, 1, 9, 9, 0, 9, 2, 64, 9, 9, 7, 5), 2);
    unread(left, right, WORDS(9, 1, 9, 9, 9, 9, 2, KAVUREHY_BARRED));
}

/* Forms over ab: the empty word is one, a word needs a blank, a form is compared with itself, there are no columns. */
static void lines_of_pairs(void)
{
    struct words a = WORDS(0x10020001, 0x20000301), a_star = WORDS(0x10020101, 0x20000301, 0x30000101);
    struct words aa = WORDS(0x10020002, 0x20000101, 0x20000201, 0x30000102), ab = WORDS(0x10020002, 0x20000101, 0x20000202, 0x30000102);
    differ(a, a_star, WORDS(0, 4, 4), 4);
    differ(aa, ab, WORDS(5, 1, 9, 5, 1, 9, 5, 1, 9), -4);
    differ(aa, a, WORDS(5, 1, 9, 5, 1, 9, 5, 1, 9), 4);
    differ(ab, ab, WORDS(5, 1, 9, 5, 9, 2), 0);
    differ(a_star, a_star, NO_WORDS, 0);
    differ(a, ab, WORDS(1000000, 0, 0, 0, 1000000, 1000000), -1000000);
}

/* 16 for want of columns, by barred labels, and by a form that accepts nothing: for one form, and for both. */
static void without_reading(void)
{
    struct words a = WORDS(0x10020001, 0x20000301), b = WORDS(0x10020001, 0x20000302), a_star = WORDS(0x10020101, 0x20000301, 0x30000101);
    struct words aa = WORDS(0x10020002, 0x20000101, 0x20000201, 0x30000102), nothing = WORDS(0x10020001, 0x20000201);
    unread(a, aa, WORDS(5, 1, 9));
    unread(aa, aa, WORDS(5, 1, 9, 5, 1, 9));
    unread(a, a_star, NO_WORDS);
    unread(a, b, NO_WORDS);
    unread(a, b, WORDS(0, KAVUREHY_BARRED, 4));
    unread(a, b, WORDS(0, KAVUREHY_BARRED, KAVUREHY_BARRED));
    unread(a, aa, WORDS(KAVUREHY_BARRED, 1, 9, KAVUREHY_BARRED, 1, 9, KAVUREHY_BARRED, 1, 9));
    unread(a, nothing, WORDS(5, 1, 9));
    unread(aa, nothing, WORDS(5, 1, 9));
    unread(nothing, nothing, WORDS(5, 1, 9));
}

/* The forms in this order and exchanged. */
static void refuse(struct words first, struct words second, struct line line, uint32_t number)
{
    hold_compare(first, second, line, not_compared(number));
    hold_compare(second, first, line, not_compared(number));
}

/* 11 for one form, for both by the same fault, for both by two, whatever the matrix and the work memory are. */
static void forms(void)
{
    static const uint32_t FREE[3], DEAR[1] = {1000001};
    const struct line lines[] = {{{FREE, 3}, 3, 1, 0, 0, 510}, {{DEAR, 1}, 4, 300, 0, 0, 0}};
    struct words good = WORDS(0x10020002, 0x20000301, 0x20000302), other_k = WORDS(0x10030001, 0x20000301);
    for (size_t n = 0; n < BAD_FORMS; n++)
        for (size_t m = 0; m < 2; m++) {
            refuse(bad_form(n), good, lines[m], 11);
            refuse(bad_form(n), other_k, lines[m], 11);
            refuse(bad_form(n), bad_form(n), lines[m], 11);
            refuse(bad_form(n), bad_form((n + 1) % BAD_FORMS), lines[m], 11);
        }
}

/* 12 for both forms: by itself, and with all later ones. */
static void shapes(void)
{
    static uint32_t costs[768];
    struct words a = WORDS(0x10020001, 0x20000301), aa = WORDS(0x10020002, 0x20000101, 0x20000201, 0x30000102);
    for (size_t n = 0; n < BAD_SHAPES; n++) {
        struct line line = {{costs, BAD_SHAPE[n][0]}, BAD_SHAPE[n][1], BAD_SHAPE[n][2], 0, 0, 1285};
        costs[0] = 0;
        refuse(a, a, line, 12);
        refuse(a, aa, line, 12);
        costs[0] = 1000001;
        line.work = 0;
        refuse(a, aa, line, 12);
    }
}

/* 12 for unequal K, whether the width fits one of the forms or neither, also without columns; for equal K if it fits neither. */
static void widths(void)
{
    static uint32_t costs[12];
    struct words k1 = WORDS(0x10010101, 0x20000301), k2 = WORDS(0x10020101, 0x20000301), k3 = WORDS(0x10030101, 0x20000301);
    for (size_t columns = 0; columns <= 2; columns++)
        for (size_t width = 0; width <= 6; width++) {
            struct line line = {{costs, columns * width}, width, columns, 0, 0, 9};
            refuse(k1, k2, line, 12);
            refuse(k1, k3, line, 12);
            refuse(k2, k3, line, 12);
            if (width != 3)
                refuse(k2, k2, line, 12);
            costs[0] = 1000001;
            line.work = 0;
            refuse(k1, k2, line, 12);
            costs[0] = 0;
        }
    compares(k2, k2, line_of(k2, costs, 0), apart(line_of(k2, costs, 0), 0));
}

/* 13 at each place of the matrix: by itself, and with all later ones. 1,000,000 and the cost of a barred label pass, so a later one is
   given. */
static void bad_costs(void)
{
    static const uint32_t BAD[] = {1000001, KAVUREHY_BARRED - 1}, GOOD[] = {1000000, KAVUREHY_BARRED};
    struct words a = WORDS(0x10020001, 0x20000301), ab = WORDS(0x10020002, 0x20000101, 0x20000202, 0x30000102);
    struct words aa = WORDS(0x10020002, 0x20000101, 0x20000201, 0x30000102);
    for (size_t n = 0; n < 6; n++)
        for (size_t m = 0; m < 2; m++) {
            uint32_t costs[6] = {0};
            struct line enough = line_of(ab, costs, 2), none = enough;
            none.work = 0;
            costs[n] = BAD[m];
            refuse(a, ab, enough, 13);
            refuse(a, ab, none, 13);
            refuse(a, aa, enough, 13);
            refuse(aa, aa, none, 13);
            costs[n] = GOOD[m];
            refuse(a, ab, none, 15);
        }
}

/* 15 with fewer words than the form with more letters needs, whether the other one has enough or not; aa has no reading in two columns. */
static void work_words(void)
{
    static const uint32_t COSTS[6];
    const struct words sizes[] = {
        WORDS(0x10020001, 0x20000301),
        WORDS(0x10020002, 0x20000101, 0x20000201, 0x30000102),
        WORDS(0x10020003, 0x20000301, 0x20000302, 0x20000301),
        WORDS(0x10020003, 0x20000302, 0x20000301, 0x20000302),
    };
    for (size_t columns = 0; columns <= 2; columns++)
        for (size_t n = 0; n < 4; n++)
            for (size_t m = n; m < 4; m++) {
                struct line line = line_of(sizes[m], COSTS, columns);
                for (line.work = 0; line.work < (columns + 1) * (2 * letters_of(sizes[m]) + 1); line.work++)
                    refuse(sizes[n], sizes[m], line, 15);
            }
}

/* A form that reads the line, one that does not, one for another K, and none. */
enum { READS, UNREAD, OTHER_K, NO_FORM, KINDS };

/* The first refusal that applies to the forms and to faults of the list, of a cost, of the work memory; 0 if there is none. */
static uint32_t first_fault(int first, int second, int length, int cost, int work)
{
    if (first == NO_FORM || second == NO_FORM)
        return 11;
    if (first == OTHER_K || second == OTHER_K || length)
        return 12;
    if (cost)
        return 13;
    if (work)
        return 15;
    return first == UNREAD || second == UNREAD ? 16 : 0;
}

/* Each kind of form with each; each with and without a list that is one too short, a cost that is too high, a work word too few. */
static void faults_together(void)
{
    const struct words kinds[2][KINDS] = {
        {WORDS(0x10020001, 0x20000301), WORDS(0x10020002, 0x20000101, 0x20000201, 0x30000102), WORDS(0x10030001, 0x20000301),
         WORDS(0x10020001, 0x20000303)},
        {WORDS(0x10020003, 0x20000302, 0x20000302, 0x20000302), WORDS(0x10020001, 0x20000201), WORDS(0x10010001, 0x20000301),
         WORDS(0x10020004, 0x20000301)},
    };
    for (int n = 0; n < KINDS * KINDS * 8; n++) {
        int first = n / 8 % KINDS, second = n / 8 / KINDS, length = n & 1, cost = n >> 1 & 1, work = n >> 2 & 1;
        struct words one = kinds[0][first], two = kinds[1][second];
        uint32_t costs[6] = {5, 1, 9, 5, cost ? 1000001 : 1, 3}, number = first_fault(first, second, length, cost, work);
        struct line line = {{costs, 6 - (size_t)length}, 3, 2, 0, 0, line_of_pair(one, two, costs, 2).work - (size_t)work};
        struct comparison comparison = number == 0 ? apart(line, 2 - 8) : number == 16 ? no_comparison(line) : not_compared(number);
        hold_compare(one, two, line, comparison);
        comparison.difference = -comparison.difference;
        hold_compare(two, one, line, comparison);
    }
}

/* 255 columns, blank at 1,000,000 and a at 0: the empty word against a, by a form of 127 letters. */
static void largest(void)
{
    static uint32_t letters[128] = {0x1001007f}, costs[510];
    struct words empty = WORDS(0x10010101, 0x20000001), a = {letters, 128};
    for (size_t n = 1; n < 128; n++)
        letters[n] = 0x20000301;
    for (size_t t = 0; t < 255; t++)
        costs[2 * t] = 1000000;
    calling("work words");
    if (line_of_pair(empty, a, costs, 255).work != 65280)
        fail("%zu are needed, and 65280 are expected", line_of_pair(empty, a, costs, 255).work);
    differ(empty, a, (struct words){costs, 510}, 255 * 1000000);
}

void comparisons(void)
{
    faces();
    lines_of_pairs();
    without_reading();
    forms();
    shapes();
    widths();
    bad_costs();
    work_words();
    faults_together();
    largest();
}
