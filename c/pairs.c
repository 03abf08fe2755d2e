/* Compare against the search over all lists of labels, by pairs of forms: made without compile, of expressions, of lists of words. */
#include "tests.h"

#include <string.h>

#include "beginnings.h"
#include "languages.h"
#include "made.h"
#include "random.h"
#include "rooms.h"

/* A form and its words. */
struct known {
    uint32_t words[16257];
    struct words form;
    struct language language;
};

static void know_form(uint32_t k, struct known *known)
{
    known->form = (struct words){known->words, make_form(k, known->words)};
    known->language = language_of_form(known->form);
}

static void know_text(uint32_t k, struct known *known)
{
    char alphabet[CHARACTERS + 1], text[MADE_TEXT];
    make_alphabet(k, alphabet);
    make_text(alphabet, text);
    known->form = compiled(alphabet, text, known->words, sizeof known->words / sizeof *known->words);
    known->language = language_of_text(alphabet, text);
}

static void know_list(uint32_t k, struct known *known)
{
    char alphabet[CHARACTERS + 1], list[MADE_LIST];
    struct words form;
    do {
        make_alphabet(k, alphabet);
        make_list(alphabet, list);
    } while (hold_list(TEXT(alphabet), TEXT(list), &form) != 0);
    memcpy(known->words, form.first, form.length * sizeof *form.first);
    known->form = (struct words){known->words, form.length};
    known->language = language_of_list(alphabet, list);
}

/* How many lines have unequal prices, equal prices, a reading by one form only, by none; and how many of the first kind have forms with
   unequally many letters. */
static unsigned long unequal, equal, by_one, by_none, larger;

/* The difference must be that of the prices that the search finds. */
static void hold_line(const struct known *first, const struct known *second, const uint32_t *costs, size_t columns)
{
    struct best one = search(&first->language, costs, columns), two = search(&second->language, costs, columns);
    struct line line = line_of_pair(first->form, second->form, costs, columns);
    if (one.found && two.found)
        compares(first->form, second->form, line, apart(line, (int32_t)one.price - (int32_t)two.price));
    else
        compares(first->form, second->form, line, no_comparison(line));
    unequal += one.found && two.found && one.price != two.price;
    equal += one.found && two.found && one.price == two.price;
    by_one += one.found != two.found;
    by_none += !one.found && !two.found;
    larger += one.found && two.found && one.price != two.price && letters_of(first->form) != letters_of(second->form);
}

/* Matrices of each number of columns, with small costs and with any, half of them again with barred labels. */
static void hold_lines(const struct known *first, const struct known *second)
{
    size_t width = first->language.k + 1;
    for (size_t columns = 0; columns <= COLUMNS; columns++)
        for (int round = 0; round < (columns == 0 ? 1 : 4); round++) {
            uint32_t costs[COLUMNS * (CHARACTERS + 1)];
            make_costs(costs, columns * width, below(3) == 0 ? 1000001 : 2 + below(3));
            hold_line(first, second, costs, columns);
            if (columns == 0 || round % 2 == 0)
                continue;
            bar(costs, width, columns);
            hold_line(first, second, costs, columns);
        }
}

void pairs(void)
{
    static void (*const KNOW[])(uint32_t, struct known *) = {know_form, know_text, know_list};
    static struct known first, second;
    for (int n = 0; n < 900; n++) {
        uint32_t k = 1 + below(CHARACTERS);
        KNOW[n % 3](k, &first);
        KNOW[n / 3 % 3](k, &second);
        hold_lines(&first, &second);
    }
    calling("pairs of forms");
    if (unequal < 5000 || equal < 1000 || by_one < 1000 || by_none < 1000 || larger < 1000)
        fail("%lu lines have unequal prices, %lu equal ones, %lu a reading by one form, %lu by none; %lu have a larger form", unequal,
             equal, by_one, by_none, larger);
    unequal = equal = by_one = by_none = larger = 0;
}
