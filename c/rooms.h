/* Calls that succeed, and decode, read and compare past their other checks, each with exactly the memory that it needs, with more, and with
   one element less, which is refused. */
#ifndef ROOMS_H
#define ROOMS_H

#include "held.h"

void compiles(struct bytes alphabet, struct bytes text, struct words form);
void compiles_list(struct bytes alphabet, struct bytes list, struct words form);
void collapses(size_t k, struct bytes path, struct bytes word);
void spreads(size_t k, struct bytes word, struct bytes path);
void has_costs(struct bytes confidences, struct words costs);

/* The number of letters and of characters, by the form's first word. */
size_t letters_of(struct words form);
size_t characters_of(struct words form);

/* A matrix for a form, with exactly the memory that is needed. */
struct line line_of(struct words form, const uint32_t *costs, size_t columns);

/* What is expected for such a line: a price, a path and its word, or no reading. */
struct answer reading(struct line line, uint32_t price, struct bytes path, struct bytes word);
struct answer no_reading(struct line line);

/* What is expected at one of the other refusals. */
struct answer refused(uint32_t number);

/* Decode and read must give this answer for a line with exactly the memory that is needed. */
void decodes(struct words form, struct line line, struct answer answer);
void reads(struct bytes alphabet, struct bytes text, struct words form, struct line line, struct answer answer);

/* A matrix for two forms over equally many characters, with exactly the work memory that is needed: that of the form with more letters. */
struct line line_of_pair(struct words first, struct words second, const uint32_t *costs, size_t columns);

/* What is expected for such a line: a difference of the prices, or no reading of one of the forms. */
struct comparison apart(struct line line, int32_t difference);
struct comparison no_comparison(struct line line);

/* What is expected at one of the other refusals. */
struct comparison not_compared(uint32_t number);

/* Compare must give this answer for such a line, and with the forms exchanged the same with the other sign. */
void compares(struct words first, struct words second, struct line line, struct comparison comparison);

#endif
