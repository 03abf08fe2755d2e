/* Small forms, alphabets, expressions, lists of words and matrices, made at random. */
#ifndef MADE_H
#define MADE_H

#include "search.h"

/* The most letters of such a form and its length; the most words of such a list and its size as a string; the size of an expression. */
enum { MADE_LETTERS = 5, MADE_FORM = 1 + 5 + 25, MADE_WORDS = 6, MADE_LIST = MADE_WORDS * (COLUMNS + 1) + 1, MADE_TEXT = 60 };

/* Writes a form over k characters, often with several walks for one word, and returns its length. */
size_t make_form(uint32_t k, uint32_t *words);

/* Of a, b and c, often with repeated ones; at most CHARACTERS. */
void make_alphabet(uint32_t k, char *alphabet);

/* Of one to four pieces, with and without a choice. */
void make_text(const char *alphabet, char *text);

/* Now and then with a repeated line. */
void make_list(const char *alphabet, char *list);

/* Costs below `most`. */
void make_costs(uint32_t *costs, size_t length, uint32_t most);

/* Bars all labels of a column, a label in all columns, or labels here and there. */
void bar(uint32_t *costs, size_t width, size_t columns);

#endif
