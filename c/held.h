/* Each function here makes one of the nine calls on lists of its own, and compares it with what is expected: the number, the counts, what
   is written, and all other memory as it was. */
#ifndef HELD_H
#define HELD_H

#include "lists.h"

/* What decode, compare and read get besides forms or a text: a matrix, and the lengths of path, word and work memory. Compare takes work
   memory only. */
struct line {
    struct words costs;
    size_t width, columns;
    size_t path, word, work;
};

/* What is expected of decode and read: a number; a price, a path, its word as labels; and how many work words may hold anything
   afterwards. At a refusal the price is 0, and path and word are empty. */
struct answer {
    uint32_t number, price;
    struct bytes path, word;
    size_t work;
};

/* What is expected of compare: a number; the difference of the prices, 0 at a refusal; and the work words, as above. */
struct comparison {
    uint32_t number;
    int32_t difference;
    size_t work;
};

/* With lent memory of this length the call must return this number and write these elements: none at a refusal. */
void hold_compile(struct bytes alphabet, struct bytes text, size_t memory, uint32_t number, struct words form);
void hold_compile_list(struct bytes alphabet, struct bytes list, size_t memory, uint32_t number, struct words form);
void hold_collapse(size_t k, struct bytes path, size_t memory, uint32_t number, struct bytes word);
void hold_spread(size_t k, struct bytes word, size_t memory, uint32_t number, struct bytes path);
void hold_costs(struct bytes confidences, size_t memory, uint32_t number, struct words costs);

void hold_judge(struct words form, struct bytes word, uint32_t number, uint32_t accepted);
void hold_decode(struct words form, struct line line, struct answer answer);

/* Two forms that are the same list are passed as one. */
void hold_compare(struct words first, struct words second, struct line line, struct comparison comparison);

/* `form` is what must be written to the form memory: after 12 to 16 too, and nothing after 1 to 10 and 19. */
void hold_read(struct bytes alphabet, struct bytes text, struct line line, size_t memory, struct words form, struct answer answer);

/* The form of an expression that must not be refused, as compile writes it; nothing is compared. */
struct words compiled(const char *alphabet, const char *text, uint32_t *words, size_t memory);

/* Returns how many calls were made; fails unless each call returned each of its numbers and no other. */
unsigned long calls_made(void);

#endif
