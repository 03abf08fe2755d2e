/* Lists in memory of their own: made before a call, compared and freed after it. */
#include "lists.h"

#include <stdarg.h>
#include <stdio.h>
#include <stdlib.h>
#include <string.h>

/* Elements before a list and after it: an odd number, so that a list of bytes begins at an odd address. */
enum { GUARD = 5 };

int guarded = 1;

static char under_way[400];

void calling(const char *format, ...)
{
    va_list arguments;
    va_start(arguments, format);
    vsnprintf(under_way, sizeof under_way, format, arguments);
    va_end(arguments);
}

void fail(const char *format, ...)
{
    va_list arguments;
    printf("failed: %s, %s: ", under_way, guarded ? "guarded memory" : "uninitialised memory");
    va_start(arguments, format);
    vprintf(format, arguments);
    va_end(arguments);
    printf("\n");
    exit(1);
}

/* Never null, even for 0 bytes. */
static unsigned char *memory(size_t bytes)
{
    unsigned char *all = malloc(bytes > 0 ? bytes : 1);
    if (all == NULL)
        fail("no memory");
    return all;
}

/* A different pattern for each list, so that an outcome that depends on lent memory changes. */
static void fill(unsigned char *all, size_t bytes)
{
    static uint32_t state = 1;
    for (size_t n = 0; n < bytes; n++) {
        state = state * 1664525u + 1013904223u;
        all[n] = (unsigned char)(state >> 24);
    }
}

static size_t guard(const struct list *list)
{
    return (size_t)((unsigned char *)list->first - list->all);
}

static size_t whole(const struct list *list)
{
    return 2 * guard(list) + list->length * list->size;
}

static struct list room(size_t size, size_t length)
{
    size_t before = guarded ? GUARD * size : 0;
    struct list list = {NULL, memory(2 * before + length * size), NULL, size, length};
    list.first = list.all + before;
    if (guarded)
        fill(list.all, whole(&list));
    return list;
}

static void remember(struct list *list)
{
    list->was = memory(whole(list));
    memcpy(list->was, list->all, whole(list));
}

static struct list given(const void *elements, size_t size, size_t length)
{
    struct list list = room(size, length);
    if (length > 0)
        memcpy(list.first, elements, length * size);
    remember(&list);
    return list;
}

static struct list lent(size_t size, size_t length)
{
    struct list list = room(size, length);
    if (guarded)
        remember(&list);
    return list;
}

struct list given_bytes(struct bytes elements)
{
    return given(elements.first, 1, elements.length);
}

struct list given_words(struct words elements)
{
    return given(elements.first, sizeof(uint32_t), elements.length);
}

struct list lent_bytes(size_t length)
{
    return lent(1, length);
}

struct list lent_words(size_t length)
{
    return lent(sizeof(uint32_t), length);
}

void used(const char *name, struct list *list, size_t n)
{
    size_t start = guard(list), end = start + n * list->size;
    if (list->was != NULL) {
        if (memcmp(list->all, list->was, start) != 0)
            fail("%s: memory in front of it is not as it was", name);
        if (memcmp(list->all + end, list->was + end, whole(list) - end) != 0)
            fail("%s: memory after the first %zu of %zu elements is not as it was", name, n, list->length);
    }
    free(list->all);
    free(list->was);
}

static unsigned long element(const void *elements, size_t size, size_t n)
{
    return size == 1 ? ((const uint8_t *)elements)[n] : ((const uint32_t *)elements)[n];
}

void wrote(const char *name, struct list *list, const void *elements, size_t n)
{
    if (n > list->length)
        fail("%s: %zu elements are expected, and %zu are lent", name, n, list->length);
    for (size_t i = 0; i < n; i++) {
        unsigned long found = element(list->first, list->size, i), expected = element(elements, list->size, i);
        if (found != expected)
            fail("%s: element %zu is %lu, and %lu is expected", name, i, found, expected);
    }
    used(name, list, n);
}

void kept(const char *name, struct list *list)
{
    used(name, list, 0);
}
