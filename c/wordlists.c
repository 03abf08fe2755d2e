/* Lists of words: forms written by hand, lines, every refusal by itself and with later ones, and lists made at random. */
#include "tests.h"

#include <string.h>

#include "beginnings.h"
#include "random.h"
#include "rooms.h"

/* Forms written by hand: letters are numbered as the list completes beginnings, arcs ascend, and a word may begin another. */
static void forms(void)
{
    static const struct {
        const char *alphabet, *lists[2];
        uint32_t form[12]; /* the length, then the words */
    } FORMS[] = {
        {"ab", {"a\n"}, {2, 0x10020001, 0x20000301}},
        {"ab", {"ab\n"}, {4, 0x10020002, 0x20000101, 0x20000202, 0x30000102}},
        {"ab", {"a\nb\n"}, {3, 0x10020002, 0x20000301, 0x20000302}},
        {"ab", {"b\na\n"}, {3, 0x10020002, 0x20000302, 0x20000301}},
        {"ab", {"a\nab\n", "ab\na\n"}, {4, 0x10020002, 0x20000301, 0x20000202, 0x30000102}},
        {"ab", {"aba\na\n", "a\naba\n"}, {6, 0x10020003, 0x20000301, 0x20000002, 0x20000201, 0x30000102, 0x30000203}},
        {"ab", {"aa\nba\n"}, {7, 0x10020004, 0x20000101, 0x20000201, 0x20000102, 0x20000201, 0x30000102, 0x30000304}},
        {"ab", {"ab\nb\naa\n"}, {7, 0x10020004, 0x20000101, 0x20000202, 0x20000302, 0x20000201, 0x30000102, 0x30000104}},
        {"ab", {"a\nb\nba\nab\n"}, {7, 0x10020004, 0x20000301, 0x20000302, 0x20000201, 0x20000202, 0x30000104, 0x30000203}},
        {".*a", {".*\n*\n"}, {5, 0x10030003, 0x20000101, 0x20000202, 0x20000302, 0x30000102}},
        {"a ", {"a\na \n", "a \na\n"}, {4, 0x10020002, 0x20000301, 0x20000202, 0x30000102}},
    };
    for (size_t n = 0; n < sizeof FORMS / sizeof *FORMS; n++)
        for (size_t m = 0; m < 2 && FORMS[n].lists[m] != NULL; m++)
            compiles_list(TEXT(FORMS[n].alphabet), TEXT(FORMS[n].lists[m]), (struct words){FORMS[n].form + 1, FORMS[n].form[0]});
}

/* The same over alphabets with repeated characters: consecutive letters for the labels of one, and all arcs between those of two. */
static void forms_of_sevens(void)
{
    struct words begun = WORDS(0x10030003, 0x20000301, 0x20000303, 0x20000202, 0x30000103, 0x30000203);
    compiles_list(TEXT("77"), TEXT("7\n"), WORDS(0x10020002, 0x20000301, 0x20000302));
    compiles_list(TEXT("7a7"), TEXT("7\n7a\n"), begun);
    compiles_list(TEXT("7a7"), TEXT("7a\n7\n"), begun);
    compiles_list(TEXT("7a7"), TEXT("7a\n77\n"),
                  WORDS(0x10030005, 0x20000101, 0x20000103, 0x20000202, 0x20000201, 0x20000203, 0x30000103, 0x30000104, 0x30000105,
                        0x30000203, 0x30000204, 0x30000205));
    compiles_list(TEXT("aba"), TEXT("ba\nab\n"),
                  WORDS(0x10030006, 0x20000102, 0x20000201, 0x20000203, 0x20000101, 0x20000103, 0x20000202, 0x30000102, 0x30000103,
                        0x30000406, 0x30000506));
}

/* A list, its form, and a line read with it: the costs; price, path, and word as labels. */
static void list_line(const char *alphabet, const char *list, struct words form, struct words costs, uint32_t price, struct bytes path,
                      struct bytes word)
{
    struct line line = line_of(form, costs.first, path.length);
    compiles_list(TEXT(alphabet), TEXT(list), form);
    decodes(form, line, reading(line, price, path, word));
    hold_judge(form, word, 0, 1);
}

/* The same for a line that has no reading. */
static void list_line_unread(const char *alphabet, const char *list, struct words form, struct words costs, size_t columns)
{
    struct line line = line_of(form, costs.first, columns);
    compiles_list(TEXT(alphabet), TEXT(list), form);
    decodes(form, line, no_reading(line));
}

/* The cheapest word, and among equals the first by labels, not by the list; no list has the empty word. */
static void list_lines(void)
{
    struct words either = WORDS(0x10020002, 0x20000302, 0x20000301), aa = WORDS(0x10020002, 0x20000101, 0x20000201, 0x30000102);
    struct words begun = WORDS(0x10020002, 0x20000301, 0x20000202, 0x30000102);
    struct words turned = WORDS(0x10020004, 0x20000102, 0x20000201, 0x20000101, 0x20000202, 0x30000102, 0x30000304);
    struct words both = WORDS(0x10020004, 0x20000101, 0x20000102, 0x20000201, 0x20000202, 0x30000103, 0x30000104, 0x30000203, 0x30000204);
    list_line("ab", "b\na\n", either, WORDS(0, 4, 4), 4, BYTES(1), BYTES(1));
    list_line("ab", "a\nab\n", begun, WORDS(5, 1, 9, 0, 9, 2), 1, BYTES(1, 0), BYTES(1));
    list_line("ab", "ab\na\n", begun, WORDS(5, 1, 9, 5, 9, 2), 3, BYTES(1, 2), BYTES(1, 2));
    list_line("ab", "ba\nab\n", turned, WORDS(5, 1, 9, 5, 1, 9), 10, BYTES(1, 2), BYTES(1, 2));
    list_line("ab", "ba\nab\n", turned, WORDS(5, 1, 2, 5, 1, 3), 3, BYTES(2, 1), BYTES(2, 1));
    list_line("ab", "aa\n", aa, WORDS(5, 1, 9, 5, 1, 9, 5, 1, 9), 7, BYTES(1, 0, 1), BYTES(1, 1));
    list_line_unread("ab", "aa\n", aa, WORDS(5, 1, 9, 5, 1, 9), 2);
    list_line_unread("ab", "b\na\n", either, NO_WORDS, 0);
    list_line("77", "77\n", both, WORDS(0, 1, 5, 0, 5, 1), 2, BYTES(1, 2), BYTES(1, 2));
    list_line("77", "77\n", both, WORDS(0, 1, 5, 0, 1, 5, 0, 1, 5), 2, BYTES(1, 0, 1), BYTES(1, 1));
    hold_judge(either, NO_BYTES, 0, 0);
    hold_judge(begun, BYTES(2), 0, 0);
}

static void refuse_list(struct bytes alphabet, struct bytes list, uint32_t number)
{
    struct words form;
    if (hold_list(alphabet, list, &form) != number)
        fail("the test itself is wrong, and %lu is right", (unsigned long)number);
}

/* Refusal 1 by itself, and with 2, 3, 21 and 8. */
static void refused_alphabets(void)
{
    uint8_t many[96];
    memset(many, 'a', sizeof many);
    struct bytes alphabets[] = {TEXT(""), {many, 96}, TEXT("a\n"), TEXT("\x1f"), TEXT("a\x7f"), TEXT("a\x80"), BYTES('a', 0)};
    struct bytes lists[] = {TEXT("a\n"), TEXT(""), BYTES('a', 0, '\n'), TEXT("a\n\n"), TEXT("c\n")};
    for (size_t n = 0; n < sizeof alphabets / sizeof *alphabets; n++)
        for (size_t m = 0; m < sizeof lists / sizeof *lists; m++)
            refuse_list(alphabets[n], lists[m], 1);
    refuse_list((struct bytes){many, 95}, TEXT("a\nc\n"), 8);
}

/* Lists over the alphabet ab: wherever the faults are, 3 comes before 21, and 21 before 8. */
static void refused_lists(void)
{
    static const struct {
        uint32_t number;
        const char *lists[12];
    } REFUSED[] = {
        {2, {""}},
        {3, {"\x1f", "\x7f\n", "a\x80\n", "a\n\xff\n", "a\t\n", "a\r\n", "a\n\v", "a\n\n\x01\n", "a\na\n\x7f\n", "c\x1f\n", "c\n\n\xfe"}},
        {21, {"\n", "\n\n", "a\n\n", "\na\n", "a\n\nb\n", "a", "a\nb", "a\n ", "ab\na\nab"}},
        {21, {"a\na\n", "a\nb\na\n", "ab\na\nab\n", "ab\nb\nb\na\n"}},
        {21, {"c", "a\nc", "c\n\n", "\nc\n", "c\nc\n", "a\na\nc\n", "c\nb\nb\n"}},
        {8, {"c\n", "ac\n", "ca\n", "a\nb\nc\n", "c\na\n", "A\n", "a \n", " \n", ".\n", "a*\n", "~\n"}},
    };
    for (size_t n = 0; n < sizeof REFUSED / sizeof *REFUSED; n++)
        for (size_t m = 0; m < 12 && REFUSED[n].lists[m] != NULL; m++)
            refuse_list(TEXT("ab"), TEXT(REFUSED[n].lists[m]), REFUSED[n].number);
    refuse_list(TEXT("ab"), BYTES(0), 3);
    refuse_list(TEXT("ab"), BYTES('a', '\n', 0), 3);
    refuse_list(TEXT("aa"), TEXT("a\na\n"), 21);
    refuse_list(TEXT("77"), TEXT("7a\n"), 8);
}

static const char CHOICE[] = "ab7 *";

/* Lines of some of these characters, seldom with a fault; returns the length. */
static size_t random_list(uint32_t kinds, uint8_t *list)
{
    uint32_t length = 2 + below(60), seldom = 2 + below(6);
    for (size_t n = 0; n < length; n++)
        if (n > 0 && list[n - 1] != '\n' && below(seldom) == 0)
            list[n] = '\n';
        else
            list[n] = below(800) == 0 ? (uint8_t)below(256) : (uint8_t)CHOICE[below(kinds)];
    if (below(20) > 0)
        list[length - 1] = '\n';
    return length;
}

/* An alphabet of them, seldom with a fault or without one of them, often with repeated ones; returns the length. */
static size_t random_alphabet(uint32_t kinds, uint8_t *alphabet)
{
    uint32_t length = kinds + below(below(3) == 0 ? 30 : 3);
    kinds -= kinds > 1 && below(8) == 0;
    for (size_t n = 0; n < length; n++)
        alphabet[n] = (uint8_t)CHOICE[n < kinds ? n : below(kinds)];
    if (below(20) == 0)
        alphabet[below(length)] = (uint8_t)below(256);
    return length;
}

static void random_lists(void)
{
    unsigned long numbers[22] = {0};
    for (int n = 0; n < 4000; n++) {
        uint8_t alphabet[40], list[70];
        uint32_t kinds = 1 + below(5);
        struct bytes over = {alphabet, random_alphabet(kinds, alphabet)}, given = {list, random_list(kinds, list)};
        struct words form;
        numbers[hold_list(over, given, &form)]++;
    }
    calling("random lists");
    if (numbers[0] < 1000 || numbers[1] < 50 || numbers[3] < 50 || numbers[21] < 500 || numbers[8] < 100 || numbers[9] < 100)
        fail("%lu are compiled, and refused by 1, 3, 21, 8, 9 %lu, %lu, %lu, %lu, %lu", numbers[0], numbers[1], numbers[3], numbers[21],
             numbers[8], numbers[9]);
}

void word_lists(void)
{
    forms();
    forms_of_sevens();
    list_lines();
    refused_alphabets();
    refused_lists();
    random_lists();
}
