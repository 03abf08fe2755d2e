/* Decode and read against the search over all lists of labels; judge and compile against the words that a walk or POSIX's own matcher
   accepts, compile_list against the lines of its list. */
#include "tests.h"

#include <string.h>

#include "beginnings.h"
#include "languages.h"
#include "made.h"
#include "random.h"
#include "rooms.h"

/* How many lines have several best lists, a best word that needs a blank between equal labels, a best list with two labels of one character
   side by side, no reading; and how many have another best list, or none, only because of barred labels. */
static unsigned long tied, parted, beside, unread, changed, barred;

/* Are these two unequal labels of one character? */
static int are_twins(const char *alphabet, uint8_t x, uint8_t y)
{
    return x != 0 && y != 0 && x != y && alphabet[x - 1] == alphabet[y - 1];
}

/* Decode must find what the search finds, and so must read if there is a text. */
static struct best hold_matrix(struct words form, const struct language *language, const char *alphabet, const char *text,
                               const uint32_t *costs, size_t columns)
{
    struct best best = search(language, costs, columns);
    struct bytes path = {best.path, columns}, word = {best.word, best.length};
    struct line line = line_of(form, costs, columns);
    struct answer answer = best.found ? reading(line, best.price, path, word) : no_reading(line);
    decodes(form, line, answer);
    if (text != NULL)
        reads(TEXT(alphabet), TEXT(text), form, line, answer);
    int pair = 0, twins = 0;
    for (size_t n = 1; n < best.length; n++)
        pair |= best.word[n] == best.word[n - 1];
    for (size_t n = 1; n < columns; n++)
        twins |= alphabet != NULL && are_twins(alphabet, best.path[n - 1], best.path[n]);
    tied += best.tied != 0;
    parted += pair != 0;
    beside += twins != 0;
    unread += !best.found;
    return best;
}

/* A few matrices of each number of columns, half of them again with barred labels. */
static void hold_matrices(struct words form, const struct language *language, const char *alphabet, const char *text, int rounds)
{
    size_t width = language->k + 1;
    for (size_t columns = 0; columns <= COLUMNS; columns++)
        for (int round = 0; round < (columns == 0 ? 1 : rounds); round++) {
            uint32_t costs[COLUMNS * (CHARACTERS + 1)];
            make_costs(costs, columns * width, 2 + below(3));
            struct best best = hold_matrix(form, language, alphabet, text, costs, columns);
            if (columns == 0 || round % 2 == 0)
                continue;
            bar(costs, width, columns);
            struct best other = hold_matrix(form, language, alphabet, text, costs, columns);
            changed += other.found && memcmp(other.path, best.path, columns) != 0;
            barred += best.found && !other.found;
        }
}

/* Judge must accept the words of the language and no others. */
static void hold_words(struct words form, const struct language *language)
{
    uint8_t word[COLUMNS];
    for (size_t length = 0; length <= COLUMNS; length++)
        for (size_t number = 0; number < lists(language->k, length); number++) {
            nth_list(language->k, length, number, word);
            struct bytes given = {word, length};
            if (memchr(word, 0, length) == NULL)
                hold_judge(form, given, 0, has_word(language, word, length) != 0);
            else
                hold_judge(form, given, 17, 0);
        }
}

/* Forms of at most 3 characters and 5 letters, made without compile. */
static void made_forms(void)
{
    for (int n = 0; n < 600; n++) {
        uint32_t words[MADE_FORM];
        struct words form = {words, make_form(1 + below(CHARACTERS), words)};
        struct language language = language_of_form(form);
        hold_words(form, &language);
        hold_matrices(form, &language, NULL, NULL, 6);
    }
}

/* Expressions of every construct except the modifier, which regcomp does not know; some over alphabets with repeated characters. */
static void texts(void)
{
    static const char *const TEXTS[][2] = {
        {"a", "a{2,3}"},         {"a", "(aa)*"},         {"a", "(a|aa)(a|aa)"}, {"ab", "a"},
        {"ab", "ab*"},           {"ab", "a|b"},          {"ab", "(a|b)*"},      {"ab", "(ab)+"},
        {"ab", "(a|ab)(b|ba)?"}, {"ab", "a{1,3}b?"},     {"ab", "[^a]a*"},      {"ab", ".{2,3}"},
        {"ab", "(aa|b)*"},       {"ab", "(a?b){2}"},     {"ab", "a(ba)*|bb"},   {"ab", "(a*b)*a?"},
        {"ab", "((a|b)b){1,2}"}, {"ab", "b{0,2}a{2,}"},  {"ba", "[a-b]b"},      {"ba", "(b|ab?)+"},
        {"abc", "c?(a|b)+c?"},   {"abc", "[a-c]{2}"},    {"cab", "[a-b]+c|cc"}, {"+a.", "[.+]?a\\+*"},
        {"a1B", "[[:alpha:]]+1?"}, {"1-a", "[[:digit:]-]{2}a*"}, {"aA ", "[^[:upper:]]*A"}, {"b 1", "([[:space:]]|[[:xdigit:]1]b)+"},
        {"77", "77"},            {"77", "7?7+"},         {"aa", "(aa)*"},       {"777", "7{2,3}"},
        {"7a7", "[^7]?7*"},      {"7a7", "[5-8]{2}a*"},  {"aba", "[^b]{1,3}b?"}, {"baa", "(a*b)*a?"},
        {"aab", "(a|ab)(b|ba)?"}, {"a1a", "[[:alpha:]]+1?"}, {"1-1", "[[:digit:]-]{2}1*"}, {"+a+", "(\\+|a\\+)*"},
    };
    for (size_t n = 0; n < sizeof TEXTS / sizeof *TEXTS; n++) {
        const char *alphabet = TEXTS[n][0], *text = TEXTS[n][1];
        uint32_t words[200];
        struct words form = compiled(alphabet, text, words, 200);
        struct language language = language_of_text(alphabet, text);
        compiles(TEXT(alphabet), TEXT(text), form);
        hold_words(form, &language);
        hold_matrices(form, &language, alphabet, text, 60);
    }
}

/* Lists of at most 6 words, many over alphabets with repeated characters; one with a repeated line is refused, and not counted. */
static void made_lists(void)
{
    for (int n = 0; n < 500;) {
        char alphabet[CHARACTERS + 1], list[MADE_LIST];
        struct words form;
        make_alphabet(1 + below(CHARACTERS), alphabet);
        make_list(alphabet, list);
        if (hold_list(TEXT(alphabet), TEXT(list), &form) != 0)
            continue;
        struct language language = language_of_list(alphabet, list);
        hold_words(form, &language);
        hold_matrices(form, &language, alphabet, NULL, 6);
        n++;
    }
}

/* There were enough lines of each kind. */
static void hold_kinds(const char *name)
{
    calling("%s", name);
    if (tied < 5000 || parted < 1000 || beside < 1000 || unread < 1000 || changed < 1000 || barred < 1000)
        fail("%lu lines are tied, %lu parted, %lu with a character beside itself, %lu without a reading; by barred labels %lu changed, "
             "%lu without a reading",
             tied, parted, beside, unread, changed, barred);
    tied = parted = beside = unread = changed = barred = 0;
}

void small_matrices(void)
{
    made_forms();
    texts();
    hold_kinds("small matrices");
    made_lists();
    hold_kinds("small matrices by word lists");
}
