/* Document 01's lines, some with classes, barred labels or repeated characters, with the forms written by hand, and the largest input. */
#include "tests.h"

#include <string.h>

#include "kavurehy.h"
#include "rooms.h"

/* The matrix of these costs, as a line for a form. */
static struct line costs_line(struct words form, struct words costs)
{
    return line_of(form, costs.first, costs.length / (characters_of(form) + 1));
}

/* A line over an alphabet: the text, its form, the costs; price, path, and word as labels. */
static void line_over(const char *alphabet, const char *text, struct words form, struct words costs, uint32_t price, struct bytes path,
                      struct bytes word)
{
    struct line line = costs_line(form, costs);
    decodes(form, line, reading(line, price, path, word));
    reads(TEXT(alphabet), TEXT(text), form, line, reading(line, price, path, word));
    hold_judge(form, word, 0, 1);
    collapses(characters_of(form), path, word);
}

/* A line that has no reading. */
static void line_over_unread(const char *alphabet, const char *text, struct words form, struct words costs)
{
    struct line line = costs_line(form, costs);
    decodes(form, line, no_reading(line));
    reads(TEXT(alphabet), TEXT(text), form, line, no_reading(line));
}

/* The same over the alphabet ab; the word is given by its characters. */
static void document_line(const char *text, struct words form, struct words costs, uint32_t price, struct bytes path, const char *word)
{
    uint8_t labels[4] = {0};
    for (size_t n = 0; n < strlen(word); n++)
        labels[n] = (uint8_t)(word[n] - 'a' + 1);
    line_over("ab", text, form, costs, price, path, (struct bytes){labels, strlen(word)});
}

static void document_line_unread(const char *text, struct words form, struct words costs)
{
    line_over_unread("ab", text, form, costs);
}

static void document_lines(void)
{
    struct words a = WORDS(0x10020001, 0x20000301);
    struct words ab = WORDS(0x10020002, 0x20000101, 0x20000202, 0x30000102);
    struct words aa = WORDS(0x10020002, 0x20000101, 0x20000201, 0x30000102);
    struct words any = WORDS(0x10020102, 0x20000301, 0x20000302, 0x30000101, 0x30000102, 0x30000201, 0x30000202);
    document_line("ab", ab, WORDS(5, 1, 9, 5, 9, 2), 3, BYTES(1, 2), "ab");
    document_line("aa", aa, WORDS(5, 1, 9, 5, 1, 9, 5, 1, 9), 7, BYTES(1, 0, 1), "aa");
    document_line_unread("aa", aa, WORDS(5, 1, 9, 5, 1, 9));
    document_line("a*", WORDS(0x10020101, 0x20000301, 0x30000101), NO_WORDS, 0, NO_BYTES, "");
    document_line_unread("a", a, NO_WORDS);
    document_line("a|b", WORDS(0x10020002, 0x20000301, 0x20000302), WORDS(0, 4, 4), 4, BYTES(1), "a");
    document_line("a", a, WORDS(0, 0, 0, 0, 0, 0), 0, BYTES(0, 1), "a");
    document_line("a{2}", aa, WORDS(1, 0, 9, 1, 0, 9, 1, 0, 9, 1, 0, 9), 1, BYTES(1, 0, 1, 1), "aa");
    document_line("(a|b)*", any, WORDS(3, 1, 1, 3, 1, 1), 2, BYTES(1, 1), "a");
}

/* Classes in brackets: alone, beside a character, complemented. */
static void class_lines(void)
{
    struct words either = WORDS(0x10020002, 0x20000301, 0x20000302), b = WORDS(0x10020001, 0x20000302);
    document_line("[[:alpha:]]", either, WORDS(0, 4, 4), 4, BYTES(1), "a");
    document_line("[b[:digit:]]", b, WORDS(5, 1, 9, 5, 9, 2), 7, BYTES(0, 2), "b");
    document_line("[^a[:upper:]-]", b, WORDS(5, 1, 9), 9, BYTES(2), "b");
}

/* Barred labels: a path that avoids them; no reading because of them, although there are columns enough. */
static void barred_lines(void)
{
    struct words aa = WORDS(0x10020002, 0x20000101, 0x20000201, 0x30000102);
    document_line("a|b", WORDS(0x10020002, 0x20000301, 0x20000302), WORDS(0, KAVUREHY_BARRED, 4), 4, BYTES(2), "b");
    document_line("aa", aa, WORDS(KAVUREHY_BARRED, 1, 9, 5, 1, KAVUREHY_BARRED, 5, 1, 9), 7, BYTES(1, 0, 1), "aa");
    document_line_unread("aa", aa, WORDS(5, 1, 9, KAVUREHY_BARRED, 1, 9, 5, 1, 9));
}

/* Two shapes of 7: unlike ones side by side are two sevens without a blank, and one shape twice needs one. */
static void lines_of_sevens(void)
{
    struct words either = WORDS(0x10020002, 0x20000301, 0x20000302);
    struct words both = WORDS(0x10020004, 0x20000101, 0x20000102, 0x20000201, 0x20000202, 0x30000103, 0x30000104, 0x30000203, 0x30000204);
    line_over("77", "77", both, WORDS(0, 1, 5, 0, 5, 1), 2, BYTES(1, 2), BYTES(1, 2));
    line_over("77", "77", both, WORDS(0, 1, 5, 0, 1, 5), 6, BYTES(1, 2), BYTES(1, 2));
    line_over("77", "77", both, WORDS(0, 1, 5, 0, 1, 5, 0, 1, 5), 2, BYTES(1, 0, 1), BYTES(1, 1));
    line_over("77", "7", either, WORDS(0, 1, 5, 0, 5, 1), 1, BYTES(0, 2), BYTES(2));
    line_over_unread("77", "77", both, WORDS(0, 1, KAVUREHY_BARRED, 0, 1, KAVUREHY_BARRED));
    line_over_unread("7", "77", WORDS(0x10010002, 0x20000101, 0x20000201, 0x30000102), WORDS(0, 1, 0, 1));
}

/* Each kind of set means all labels of its characters, in label order, and a complement takes away all of them. */
static void sets_of_labels(void)
{
    static const char *const SEVENS[] = {"7", "[5-8]", "[77]", "[^a]", "[[:digit:]]", "[^[:alpha:]]"};
    struct words sevens = WORDS(0x10030002, 0x20000301, 0x20000303), a = WORDS(0x10030001, 0x20000302);
    struct words all = WORDS(0x10030003, 0x20000301, 0x20000302, 0x20000303);
    for (size_t n = 0; n < sizeof SEVENS / sizeof *SEVENS; n++) {
        compiles(TEXT("7a7"), TEXT(SEVENS[n]), sevens);
        line_over("7a7", SEVENS[n], sevens, WORDS(0, 9, 0, 2), 2, BYTES(3), BYTES(3));
    }
    compiles(TEXT("+a+"), TEXT("\\+"), sevens);
    compiles(TEXT("7a7"), TEXT("."), all);
    compiles(TEXT("7a7"), TEXT("[a7]"), all);
    line_over("7a7", "[^7]", a, WORDS(0, 0, 5, 0), 5, BYTES(2), BYTES(2));
}

static void document_texts(void)
{
    static const struct {
        const char *text;
        uint32_t number;
    } REFUSED[] = {{"a{128}", 9}, {"a{0}", 6}, {"a{2,1}", 6}, {"a**", 4}, {"[b-a]", 7}, {"c", 8}};
    struct words a_star = WORDS(0x10020101, 0x20000301, 0x30000101);
    struct words a_b_star = WORDS(0x10020002, 0x20000301, 0x20000202, 0x30000102, 0x30000202);
    compiles(TEXT("ab"), TEXT("ab*"), a_b_star);
    compiles(TEXT("ab"), TEXT("a*?"), a_star);
    for (size_t n = 0; n < sizeof REFUSED / sizeof *REFUSED; n++)
        hold_compile(TEXT("ab"), TEXT(REFUSED[n].text), 300, REFUSED[n].number, NO_WORDS);

    uint32_t letters[254] = {0x1002007f};
    for (uint32_t i = 1; i <= 127; i++)
        letters[i] = 0x20000001 | (i == 1 ? 0x100 : 0) | (i == 127 ? 0x200 : 0);
    for (uint32_t i = 1; i < 127; i++)
        letters[127 + i] = 0x30000000 | i << 8 | (i + 1);
    compiles(TEXT("ab"), TEXT("a{127}"), (struct words){letters, 254});
}

/* A cost of 1,000,000 passes and one more does not; T = 3 and L = 2 need 20 work words. */
static void document_limits(void)
{
    struct words aa = WORDS(0x10020002, 0x20000101, 0x20000201, 0x30000102);
    uint32_t costs[9] = {1000000, 1, 9, 5, 1000000, 9, 5, 1, 9};
    struct line line = line_of(aa, costs, 3);
    calling("work words");
    if (line.work != 20)
        fail("%zu are needed, and 20 are expected", line.work);
    document_line("aa", aa, (struct words){costs, 9}, 7, BYTES(1, 0, 1), "aa");
    for (size_t n = 0; n < 9; n++) {
        uint32_t cost = costs[n];
        costs[n] = 1000001;
        hold_decode(aa, line, refused(13));
        hold_read(TEXT("ab"), TEXT("aa"), line, 4, aa, refused(13));
        costs[n] = cost;
    }
}

/* 127 letters with an arc from each to each, 255 columns at 1,000,000 each, and the longest lists of labels. */
static void largest(void)
{
    static uint32_t form[16257] = {0x1001017f}, costs[510];
    static uint8_t path[255], word[128];
    for (uint32_t i = 1; i <= 127; i++) {
        form[i] = 0x20000301;
        for (uint32_t j = 1; j <= 127; j++)
            form[127 * i + j] = 0x30000000 | i << 8 | j;
    }
    memset(word, 1, sizeof word);
    for (size_t t = 0; t < 255; t++) {
        costs[2 * t] = t % 2 == 0 ? 1000000 : 999999;
        costs[2 * t + 1] = t % 2 == 0 ? 999999 : 1000000;
        path[t] = t % 2 == 0;
    }
    struct words whole = {form, 16257};
    struct line line = line_of(whole, costs, 255);
    struct answer answer = reading(line, 255 * 999999, (struct bytes){path, 255}, (struct bytes){word, 128});
    calling("work words");
    if (line.work != 65280)
        fail("%zu are needed, and 65280 are expected", line.work);
    compiles(TEXT("a"), TEXT("((a*){127})*"), whole);
    decodes(whole, line, answer);
    reads(TEXT("a"), TEXT("((a*){127})*"), whole, line, answer);
    hold_judge(whole, answer.word, 0, 1);
    collapses(1, answer.path, answer.word);
    spreads(1, answer.word, answer.path);
}

void lines(void)
{
    document_lines();
    class_lines();
    barred_lines();
    lines_of_sevens();
    sets_of_labels();
    document_texts();
    document_limits();
    largest();
}
