/* Lists of labels collapsed and spread, and all confidences. */
#include "tests.h"

#include <string.h>

#include "kavurehy.h"
#include "rooms.h"
#include "search.h"

/* Puts one blank between each two equal neighbours and nowhere else; returns the path's length. */
static size_t spread_list(const uint8_t *word, size_t length, uint8_t *path)
{
    size_t labels = 0;
    for (size_t n = 0; n < length; n++) {
        if (n > 0 && word[n] == word[n - 1])
            path[labels++] = 0;
        path[labels++] = word[n];
    }
    return labels;
}

/* All lists of at most COLUMNS labels. */
static void short_lists(size_t k)
{
    uint8_t list[COLUMNS], word[COLUMNS], path[2 * COLUMNS];
    for (size_t length = 0; length <= COLUMNS; length++)
        for (size_t number = 0; number < lists(k, length); number++) {
            nth_list(k, length, number, list);
            struct bytes given = {list, length};
            collapses(k, given, (struct bytes){word, collapse_list(list, length, word)});
            size_t need = spread_list(list, length, path);
            if (memchr(list, 0, length) == NULL)
                spreads(k, given, (struct bytes){path, need});
            else
                hold_spread(k, given, need, 17, NO_BYTES);
        }
}

/* The largest n with 2^n * c^8 <= 2^64, that is c^8 <= 2^(64 - n); for 0 the label is barred. */
static uint32_t cost_of(uint64_t c)
{
    uint64_t power = c * c * c * c * c * c * c * c;
    uint32_t n = 0;
    while (n < 64 && power <= UINT64_C(1) << (63 - n))
        n++;
    return c == 0 ? KAVUREHY_BARRED : n;
}

static void confidences(void)
{
    static const uint32_t DOCUMENT[][2] = {{255, 0}, {182, 3}, {181, 4}, {128, 8}, {1, 64}, {0, KAVUREHY_BARRED}};
    static uint8_t all[1000];
    static uint32_t costs[1000];
    for (size_t n = 0; n < 1000; n++) {
        all[n] = (uint8_t)n;
        costs[n] = cost_of(n % 256);
    }
    calling("costs");
    for (size_t n = 0; n < sizeof DOCUMENT / sizeof *DOCUMENT; n++)
        if (costs[DOCUMENT[n][0]] != DOCUMENT[n][1])
            fail("the test itself is wrong at %lu", (unsigned long)DOCUMENT[n][0]);
    for (size_t length = 0; length <= 1000; length += length < 300 ? 1 : 700)
        has_costs((struct bytes){all, length}, (struct words){costs, length});
}

void labels(void)
{
    for (size_t k = 1; k <= 2; k++)
        short_lists(k);
    confidences();
}
