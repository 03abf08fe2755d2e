/* Refusals and form of a list of words by the beginnings of its lines. The beginning that ends with a newline is a whole line. */
#include "beginnings.h"

#include <string.h>

#include "rooms.h"

enum { LETTERS = 127 };

/* The line of a byte, from its start up to that byte. */
static struct bytes beginning(struct bytes list, size_t end)
{
    size_t start = end;
    while (start > 0 && list.first[start - 1] != '\n')
        start--;
    return (struct bytes){list.first + start, end + 1 - start};
}

/* Is y longer by this number of bytes, and the same up to there? */
static int continues(struct bytes x, struct bytes y, size_t by)
{
    return y.length == x.length + by && memcmp(x.first, y.first, x.length) == 0;
}

/* Does an earlier byte end the same beginning? */
static int occurred(struct bytes list, size_t end)
{
    struct bytes new = beginning(list, end);
    for (size_t n = 0; n < end; n++)
        if (continues(new, beginning(list, n), 0))
            return 1;
    return 0;
}

static int is_printable(uint8_t byte)
{
    return byte >= 32 && byte <= 126;
}

static int is_alphabet(struct bytes alphabet)
{
    for (size_t n = 0; n < alphabet.length; n++)
        if (!is_printable(alphabet.first[n]))
            return 0;
    return alphabet.length >= 1 && alphabet.length <= 95;
}

static int has_bad_byte(struct bytes list)
{
    for (size_t n = 0; n < list.length; n++)
        if (list.first[n] != '\n' && !is_printable(list.first[n]))
            return 1;
    return 0;
}

static int has_bad_line(struct bytes list)
{
    for (size_t n = 0; n < list.length; n++)
        if (list.first[n] == '\n' && (beginning(list, n).length == 1 || occurred(list, n)))
            return 1;
    return list.first[list.length - 1] != '\n';
}

static int has_foreign(struct bytes alphabet, struct bytes list)
{
    for (size_t n = 0; n < list.length; n++)
        if (list.first[n] != '\n' && memchr(alphabet.first, list.first[n], alphabet.length) == NULL)
            return 1;
    return 0;
}

/* A letter: its beginning, and one of the labels of the last character. */
struct letter {
    struct bytes beginning;
    uint32_t label;
};

/* Returns the number of letters; stops at the first byte with which there are more than LETTERS, and does not write those after these. */
static uint32_t find_letters(struct bytes alphabet, struct bytes list, struct letter *letters)
{
    uint32_t found = 0;
    for (size_t n = 0; n < list.length && found <= LETTERS; n++) {
        if (list.first[n] == '\n' || occurred(list, n))
            continue;
        for (uint32_t x = 1; x <= alphabet.length; x++)
            if (alphabet.first[x - 1] == list.first[n] && found++ < LETTERS)
                letters[found - 1] = (struct letter){beginning(list, n), x};
    }
    return found;
}

static int is_line(struct bytes list, struct bytes word)
{
    for (size_t n = 0; n < list.length; n++)
        if (list.first[n] == '\n' && continues(word, beginning(list, n), 1))
            return 1;
    return 0;
}

static struct words form_of(size_t k, struct bytes list, const struct letter *letters, uint32_t count)
{
    static uint32_t words[1 + LETTERS + LETTERS * LETTERS];
    size_t length = 0;
    words[length++] = 0x10000000 | (uint32_t)k << 16 | count;
    for (uint32_t i = 0; i < count; i++) {
        uint32_t first = letters[i].beginning.length == 1, last = is_line(list, letters[i].beginning) != 0;
        words[length++] = 0x20000000 | last << 9 | first << 8 | letters[i].label;
    }
    for (uint32_t i = 0; i < count; i++)
        for (uint32_t j = 0; j < count; j++)
            if (continues(letters[i].beginning, letters[j].beginning, 1))
                words[length++] = 0x30000000 | (i + 1) << 8 | (j + 1);
    return (struct words){words, length};
}

/* The refusal, or 0 and the form. */
static uint32_t expected(struct bytes alphabet, struct bytes list, struct words *form)
{
    struct letter letters[LETTERS];
    if (!is_alphabet(alphabet))
        return 1;
    if (list.length == 0 || list.length > 4096)
        return 2;
    if (has_bad_byte(list))
        return 3;
    if (has_bad_line(list))
        return 21;
    if (has_foreign(alphabet, list))
        return 8;
    uint32_t count = find_letters(alphabet, list, letters);
    if (count > LETTERS)
        return 9;
    *form = form_of(alphabet.length, list, letters, count);
    return 0;
}

uint32_t hold_list(struct bytes alphabet, struct bytes list, struct words *form)
{
    *form = NO_WORDS;
    uint32_t number = expected(alphabet, list, form);
    if (number == 0) {
        compiles_list(alphabet, list, *form);
    } else {
        hold_compile_list(alphabet, list, 0, number, NO_WORDS);
        hold_compile_list(alphabet, list, 300, number, NO_WORDS);
    }
    return number;
}
