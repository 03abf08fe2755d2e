/* The tests; each ends the program at the first difference. */
#ifndef TESTS_H
#define TESTS_H

/* Document 01's lines, some with classes, barred labels or repeated characters, and the largest input. */
void lines(void);

/* Every refusal of every call but compile_list and compare, by itself and with later ones. */
void refusals(void);

/* Lists of words: forms written by hand, lines, every refusal by itself and with later ones, lists made at random; and up to the limits. */
void word_lists(void);
void list_limits(void);

/* Lists of labels collapsed and spread, all 256 confidences, and words judged. */
void labels(void);

/* Decode and read against a search over all lists of labels, by expressions and by lists of words. */
void small_matrices(void);

/* Compare: lines by hand, every refusal by itself and with later ones; and pairs of forms made at random, against the same search. */
void comparisons(void);
void pairs(void);

#endif
