/* Lists of words up to the limits: 4,096 bytes, 127 letters, 95 labels. */
#include "tests.h"

#include <string.h>

#include "beginnings.h"
#include "rooms.h"

/* A list that is put together. */
struct made {
    uint8_t bytes[4097];
    size_t length;
};

static void add(struct made *list, int character, size_t times)
{
    memset(list->bytes + list->length, character, times);
    list->length += times;
}

static void add_line(struct made *list, int character, size_t times)
{
    add(list, character, times);
    add(list, '\n', 1);
}

/* This number and a form of this length, 0 at a refusal, are right. */
static struct words hold_made(struct bytes alphabet, const struct made *list, uint32_t number, size_t length)
{
    struct words form;
    if (hold_list(alphabet, (struct bytes){list->bytes, list->length}, &form) != number || form.length != length)
        fail("the test itself is wrong: %lu and %zu words are right", (unsigned long)number, length);
    return form;
}

/* The words a, aa and so on, and b: 4,096 bytes. One more is 2, with every later refusal too. */
static void most_bytes(void)
{
    static const uint8_t LAST[] = {'\n', 'b', 'c', 0};
    struct made list = {{0}, 0};
    for (size_t times = 1; times <= 89; times++)
        add_line(&list, 'a', times);
    add_line(&list, 'b', 1);
    calling("the longest list");
    if (list.length != 4096)
        fail("it has %zu bytes", list.length);
    hold_made(TEXT("ab"), &list, 0, 1 + 90 + 88);
    hold_made(TEXT("aab"), &list, 9, 0);
    list.length--;
    hold_made(TEXT("ab"), &list, 21, 0);
    add_line(&list, 'b', 1);
    hold_made(TEXT("\n"), &list, 1, 0);
    for (size_t n = 0; n < sizeof LAST; n++) {
        list.bytes[4096] = LAST[n];
        hold_made(TEXT("ab"), &list, 2, 0);
        hold_made(TEXT("aab"), &list, 2, 0);
    }
}

/* A word of 4,095 characters, with earlier refusals one after another; then only newlines. */
static void longest_word(void)
{
    struct made list = {{0}, 0};
    add_line(&list, 'a', 4095);
    hold_made(TEXT("ab"), &list, 9, 0);
    list.bytes[4094] = 'c';
    hold_made(TEXT("ab"), &list, 8, 0);
    list.bytes[4095] = 'a';
    hold_made(TEXT("ab"), &list, 21, 0);
    list.bytes[4095] = 128;
    hold_made(TEXT("ab"), &list, 3, 0);
    list.length = 0;
    add(&list, '\n', 4096);
    hold_made(TEXT("ab"), &list, 21, 0);
}

/* 127 letters of one word, or with two labels for a; then more. */
static void most_letters(void)
{
    struct made one = {{0}, 0}, two = {{0}, 0};
    add_line(&one, 'a', 127);
    hold_made(TEXT("ab"), &one, 0, 1 + 127 + 126);
    add_line(&one, 'a', 126);
    hold_made(TEXT("ab"), &one, 0, 1 + 127 + 126);
    add_line(&one, 'b', 1);
    hold_made(TEXT("ab"), &one, 9, 0);
    hold_made(TEXT("a"), &one, 8, 0);
    add_line(&two, 'a', 63);
    hold_made(TEXT("aba"), &two, 0, 1 + 126 + 62 * 4);
    add_line(&two, 'b', 1);
    hold_made(TEXT("aba"), &two, 0, 1 + 127 + 62 * 4);
    hold_made(TEXT("abba"), &two, 9, 0);
    add_line(&two, 'a', 64);
    hold_made(TEXT("aba"), &two, 9, 0);
}

/* Words of one character, from the last to the first of 95, and 32 words of two; then one more. */
static void most_words(const uint8_t *all)
{
    struct made list = {{0}, 0};
    for (size_t n = 95; n > 0; n--)
        add_line(&list, all[n - 1], 1);
    for (size_t n = 0; n < 32; n++) {
        add(&list, 'x', 1);
        add_line(&list, all[n], 1);
    }
    hold_made((struct bytes){all, 95}, &list, 0, 1 + 127 + 32);
    add_line(&list, 'x', 2);
    hold_made((struct bytes){all, 95}, &list, 9, 0);
}

/* 1,365 words of two characters; then the last equal to the first. */
static void most_lines(const uint8_t *all)
{
    struct made list = {{0}, 0};
    for (size_t n = 0; n < 1365; n++) {
        add(&list, all[n / 95], 1);
        add_line(&list, all[n % 95], 1);
    }
    hold_made((struct bytes){all, 95}, &list, 9, 0);
    hold_made((struct bytes){all, 94}, &list, 8, 0);
    memcpy(list.bytes + 3 * 1364, list.bytes, 3);
    hold_made((struct bytes){all, 94}, &list, 21, 0);
}

/* Labels of one character. The longest form of a list has an arc from each of 63 letters to each of 64; a line is read with it. */
static void most_labels(void)
{
    uint32_t costs[2 * 65];
    uint8_t sevens[95];
    struct made list = {{0}, 0};
    memset(sevens, '7', sizeof sevens);
    add_line(&list, '7', 1);
    hold_made((struct bytes){sevens, 95}, &list, 0, 1 + 95);
    add_line(&list, '7', 2);
    hold_made((struct bytes){sevens, 95}, &list, 9, 0);
    hold_made((struct bytes){sevens, 64}, &list, 9, 0);
    hold_made((struct bytes){sevens, 63}, &list, 0, 1 + 126 + 63 * 63);
    sevens[10] = 'a';
    add(&list, '7', 1);
    add_line(&list, 'a', 1);
    struct words form = hold_made((struct bytes){sevens, 64}, &list, 0, 1 + 127 + 63 * 64);
    for (size_t n = 0; n < 2 * 65; n++)
        costs[n] = n != 64 && n != 65 + 11;
    struct line line = line_of(form, costs, 2);
    decodes(form, line, reading(line, 0, BYTES(64, 11), BYTES(64, 11)));
}

void list_limits(void)
{
    uint8_t all[95];
    for (size_t n = 0; n < 95; n++)
        all[n] = (uint8_t)(32 + n);
    most_bytes();
    longest_word();
    most_letters();
    most_words(all);
    most_lines(all);
    most_labels();
}
