/* Words accepted by walks, by regcomp, by lines. */
#define _POSIX_C_SOURCE 200809L
#include "languages.h"

#include <regex.h>
#include <stdio.h>
#include <string.h>

#include "rooms.h"

/* Does a walk that begins on this letter spell the word? */
static int walks(struct words form, size_t letter, const uint8_t *word, size_t length)
{
    if ((form.first[letter] & 0xff) != word[0])
        return 0;
    if (length == 1)
        return form.first[letter] >> 9 & 1;
    for (size_t n = 1 + letters_of(form); n < form.length; n++)
        if ((form.first[n] >> 8 & 0xff) == letter && walks(form, form.first[n] & 0xff, word + 1, length - 1))
            return 1;
    return 0;
}

static int accepted_by_form(const void *what, const uint8_t *word, size_t length)
{
    struct words form = *(const struct words *)what;
    if (length == 0)
        return form.first[0] >> 8 & 1;
    for (size_t i = 1; i <= letters_of(form); i++)
        if (form.first[i] >> 8 & 1 && walks(form, i, word, length))
            return 1;
    return 0;
}

struct language language_of_form(struct words form)
{
    return language_of(characters_of(form), accepted_by_form, &form);
}

/* A text, compiled by POSIX's regcomp to match whole words, and its alphabet: a word of labels is matched by its characters. */
struct matcher {
    const char *alphabet;
    regex_t regex;
};

static int accepted_by_text(const void *what, const uint8_t *word, size_t length)
{
    const struct matcher *matcher = what;
    char characters[COLUMNS + 1] = {0};
    for (size_t n = 0; n < length; n++)
        characters[n] = matcher->alphabet[word[n] - 1];
    return regexec(&matcher->regex, characters, 0, NULL, 0) == 0;
}

struct language language_of_text(const char *alphabet, const char *text)
{
    char whole[300];
    struct matcher matcher = {.alphabet = alphabet};
    calling("regcomp of %s", text);
    snprintf(whole, sizeof whole, "^(%s)$", text);
    if (regcomp(&matcher.regex, whole, REG_EXTENDED | REG_NOSUB) != 0)
        fail("it refuses the expression");
    struct language language = language_of(strlen(alphabet), accepted_by_text, &matcher);
    regfree(&matcher.regex);
    return language;
}

/* A list of words and its alphabet: a word of labels is accepted if its characters are a line. */
struct listed {
    const char *alphabet, *list;
};

static int accepted_by_list(const void *what, const uint8_t *word, size_t length)
{
    const struct listed *listed = what;
    char line[COLUMNS + 1];
    for (size_t n = 0; n < length; n++)
        line[n] = listed->alphabet[word[n] - 1];
    line[length] = '\n';
    for (const char *start = listed->list; *start != 0; start = strchr(start, '\n') + 1)
        if (strncmp(start, line, length + 1) == 0)
            return 1;
    return 0;
}

struct language language_of_list(const char *alphabet, const char *list)
{
    struct listed listed = {alphabet, list};
    return language_of(strlen(alphabet), accepted_by_list, &listed);
}
