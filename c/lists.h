/* Lists as the calls take them, each in memory of its own, and what is demanded of that memory after a call. */
#ifndef LISTS_H
#define LISTS_H

#include <stddef.h>
#include <stdint.h>

/* The elements of a list. */
struct bytes {
    const uint8_t *first;
    size_t length;
};

struct words {
    const uint32_t *first;
    size_t length;
};

#define TEXT(s) ((struct bytes){(const uint8_t *)(s), strlen(s)})
#define BYTES(...) ((struct bytes){(const uint8_t[]){__VA_ARGS__}, sizeof((const uint8_t[]){__VA_ARGS__})})
#define WORDS(...) ((struct words){(const uint32_t[]){__VA_ARGS__}, sizeof((const uint32_t[]){__VA_ARGS__}) / sizeof(uint32_t)})
#define NO_BYTES ((struct bytes){NULL, 0})
#define NO_WORDS ((struct words){NULL, 0})

/* 1: there is a pattern before and after each list, and in lent memory. 0: each list has memory of exactly its size, and lent memory is
   uninitialised, as malloc gives it; valgrind then sees an access outside a list, and a branch on what lent memory held. */
extern int guarded;

/* A list for a call: its first element, all of its memory, and a copy of that from before the call, if there is one. */
struct list {
    void *first;
    unsigned char *all;
    unsigned char *was;
    size_t size; /* of an element */
    size_t length;
};

struct list given_bytes(struct bytes elements);
struct list given_words(struct words elements);
struct list lent_bytes(size_t length);
struct list lent_words(size_t length);

/* After the call, one of these three for each list, which it frees. The list begins with these elements, and the rest is as it was. */
void wrote(const char *name, struct list *list, const void *elements, size_t n);

/* It is as it was. */
void kept(const char *name, struct list *list);

/* It is as it was, except its first n elements, which may hold anything. */
void used(const char *name, struct list *list, size_t n);

/* Says which call is made, for the message if it fails. */
void calling(const char *format, ...);

/* Prints that call with what is wrong, and ends the program. */
void fail(const char *format, ...);

#endif
