/* A search over all lists of labels on small matrices, by the sentences of document 01 and without the calls. */
#ifndef SEARCH_H
#define SEARCH_H

#include <stddef.h>
#include <stdint.h>

/* The most columns and characters, and how many lists of labels 0 to K there are then. */
enum { COLUMNS = 5, CHARACTERS = 3, LISTS = 1024 };

/* How many lists of this length there are. */
size_t lists(size_t k, size_t length);

/* The list of this number among those of its length, in the order of labels. */
void nth_list(size_t k, size_t length, size_t number, uint8_t *list);

/* First merges each run of equal neighbours into one, then deletes blanks; returns the word's length. */
size_t collapse_list(const uint8_t *path, size_t length, uint8_t *word);

/* Says whether a word is accepted, by what the test knows of the form or the expression. */
typedef int acceptance(const void *what, const uint8_t *word, size_t length);

/* The words of at most COLUMNS labels that are accepted, by their numbers as digits to the base K + 1. */
struct language {
    size_t k;
    unsigned char accepted[LISTS];
};

struct language language_of(size_t k, acceptance *accepts, const void *what);
int has_word(const struct language *language, const uint8_t *word, size_t length);

/* The cheapest list whose collapse is accepted and that uses no barred label, the first of these by labels, if there is one; `tied` if
   another is as cheap. */
struct best {
    int found, tied;
    uint32_t price;
    uint8_t path[COLUMNS], word[COLUMNS];
    size_t length;
};

struct best search(const struct language *language, const uint32_t *costs, size_t columns);

#endif
