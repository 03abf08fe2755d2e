/* All lists of labels, one after another. */
#include "search.h"

#include <string.h>

#include "kavurehy.h"

size_t lists(size_t k, size_t length)
{
    size_t number = 1;
    for (size_t n = 0; n < length; n++)
        number *= k + 1;
    return number;
}

void nth_list(size_t k, size_t length, size_t number, uint8_t *list)
{
    for (size_t n = length; n > 0; n--) {
        list[n - 1] = (uint8_t)(number % (k + 1));
        number /= k + 1;
    }
}

size_t collapse_list(const uint8_t *path, size_t length, uint8_t *word)
{
    uint8_t merged[COLUMNS];
    size_t runs = 0, letters = 0;
    for (size_t n = 0; n < length; n++)
        if (n == 0 || path[n] != path[n - 1])
            merged[runs++] = path[n];
    for (size_t n = 0; n < runs; n++)
        if (merged[n] != 0)
            word[letters++] = merged[n];
    return letters;
}

static size_t number_of(size_t k, const uint8_t *word, size_t length)
{
    size_t number = 0;
    for (size_t n = 0; n < length; n++)
        number = number * (k + 1) + word[n];
    return number;
}

struct language language_of(size_t k, acceptance *accepts, const void *what)
{
    struct language language = {k, {0}};
    uint8_t word[COLUMNS];
    for (size_t length = 0; length <= COLUMNS; length++)
        for (size_t number = 0; number < lists(k, length); number++) {
            nth_list(k, length, number, word);
            if (memchr(word, 0, length) == NULL)
                language.accepted[number] = accepts(what, word, length) != 0;
        }
    return language;
}

int has_word(const struct language *language, const uint8_t *word, size_t length)
{
    return language->accepted[number_of(language->k, word, length)];
}

/* Adds up a list's costs; returns 0 if it uses a barred label. */
static int add_up(const uint32_t *costs, size_t width, const uint8_t *path, size_t columns, uint32_t *price)
{
    *price = 0;
    for (size_t t = 0; t < columns; t++) {
        uint32_t cost = costs[t * width + path[t]];
        if (cost == KAVUREHY_BARRED)
            return 0;
        *price += cost;
    }
    return 1;
}

struct best search(const struct language *language, const uint32_t *costs, size_t columns)
{
    struct best best = {0, 0, 0, {0}, {0}, 0};
    uint8_t path[COLUMNS], word[COLUMNS];
    for (size_t number = 0; number < lists(language->k, columns); number++) {
        uint32_t price;
        nth_list(language->k, columns, number, path);
        if (!add_up(costs, language->k + 1, path, columns, &price))
            continue;
        size_t length = collapse_list(path, columns, word);
        if ((best.found && price > best.price) || !has_word(language, word, length))
            continue;
        best.tied = best.found && price == best.price;
        if (best.tied)
            continue;
        best.found = 1;
        best.price = price;
        best.length = length;
        memcpy(best.path, path, columns);
        memcpy(best.word, word, length);
    }
    return best;
}
