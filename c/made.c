/* Random input for the search over all lists of labels. */
#include "made.h"

#include <string.h>

#include "kavurehy.h"
#include "random.h"

size_t make_form(uint32_t k, uint32_t *words)
{
    uint32_t letters = 1 + below(MADE_LETTERS), dense = 1 + below(4);
    size_t length = 0;
    words[length++] = 0x10000000 | k << 16 | (uint32_t)(below(3) == 0) << 8 | letters;
    for (uint32_t i = 1; i <= letters; i++)
        words[length++] = 0x20000000 | (uint32_t)(below(2) == 0) << 9 | (uint32_t)(below(2) == 0) << 8 | (1 + below(k));
    for (uint32_t i = 1; i <= letters; i++)
        for (uint32_t j = 1; j <= letters; j++)
            if (below(4) < dense)
                words[length++] = 0x30000000 | i << 8 | j;
    return length;
}

void make_alphabet(uint32_t k, char *alphabet)
{
    for (uint32_t n = 0; n < k; n++)
        alphabet[n] = "abc"[below(3)];
    alphabet[k] = 0;
}

static char one_of(const char *alphabet)
{
    return alphabet[below((uint32_t)strlen(alphabet))];
}

/* In a piece x and y stand for characters of the alphabet. */
void make_text(const char *alphabet, char *text)
{
    static const char *const PIECES[] = {"x", "x", ".", "[xy]", "(xy)", "(x|yx)"};
    static const char *const REPEATED[] = {"", "", "", "?", "*", "+", "{2}", "{1,2}"};
    size_t length = 0;
    for (uint32_t pieces = 1 + below(4); pieces > 0; pieces--) {
        char x = one_of(alphabet), y = one_of(alphabet);
        for (const char *sign = PIECES[below(6)]; *sign != 0; sign++)
            text[length++] = *sign == 'x' ? x : *sign == 'y' ? y : *sign;
        for (const char *sign = REPEATED[below(8)]; *sign != 0; sign++)
            text[length++] = *sign;
        if (pieces > 1 && below(5) == 0)
            text[length++] = '|';
    }
    text[length] = 0;
}

void make_list(const char *alphabet, char *list)
{
    size_t length = 0;
    for (uint32_t words = 1 + below(MADE_WORDS); words > 0; words--) {
        for (uint32_t letters = 1 + below(COLUMNS); letters > 0; letters--)
            list[length++] = one_of(alphabet);
        list[length++] = '\n';
    }
    list[length] = 0;
}

void make_costs(uint32_t *costs, size_t length, uint32_t most)
{
    for (size_t n = 0; n < length; n++)
        costs[n] = below(most);
}

void bar(uint32_t *costs, size_t width, size_t columns)
{
    uint32_t style = below(4), column = below((uint32_t)columns), label = below((uint32_t)width), one_in = 2 + below(4);
    for (size_t n = 0; n < columns * width; n++)
        if (style == 0 ? n / width == column : style == 1 ? n % width == label : below(one_in) == 0)
            costs[n] = KAVUREHY_BARRED;
}
