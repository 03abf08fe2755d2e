/* One element less, as many as are needed, and more. */
#include "rooms.h"

enum { MORE = 3 };

void compiles(struct bytes alphabet, struct bytes text, struct words form)
{
    hold_compile(alphabet, text, form.length, 0, form);
    hold_compile(alphabet, text, form.length + MORE, 0, form);
    hold_compile(alphabet, text, form.length - 1, 10, NO_WORDS);
    hold_compile(alphabet, text, 0, 10, NO_WORDS);
}

void compiles_list(struct bytes alphabet, struct bytes list, struct words form)
{
    hold_compile_list(alphabet, list, form.length, 0, form);
    hold_compile_list(alphabet, list, form.length + MORE, 0, form);
    hold_compile_list(alphabet, list, form.length - 1, 10, NO_WORDS);
    hold_compile_list(alphabet, list, 0, 10, NO_WORDS);
}

void collapses(size_t k, struct bytes path, struct bytes word)
{
    hold_collapse(k, path, path.length, 0, word);
    hold_collapse(k, path, path.length + MORE, 0, word);
    if (path.length > 0)
        hold_collapse(k, path, path.length - 1, 14, NO_BYTES);
}

void spreads(size_t k, struct bytes word, struct bytes path)
{
    hold_spread(k, word, path.length, 0, path);
    hold_spread(k, word, path.length + MORE, 0, path);
    if (path.length > 0)
        hold_spread(k, word, path.length - 1, 14, NO_BYTES);
}

void has_costs(struct bytes confidences, struct words costs)
{
    hold_costs(confidences, costs.length, 0, costs);
    hold_costs(confidences, costs.length + MORE, 0, costs);
    if (costs.length > 0)
        hold_costs(confidences, costs.length - 1, 14, NO_WORDS);
}

size_t letters_of(struct words form)
{
    return form.first[0] & 0xff;
}

size_t characters_of(struct words form)
{
    return form.first[0] >> 16 & 0xff;
}

struct line line_of(struct words form, const uint32_t *costs, size_t columns)
{
    size_t width = characters_of(form) + 1;
    struct line line = {{costs, columns * width}, width, columns, columns, columns, (columns + 1) * (2 * letters_of(form) + 1)};
    return line;
}

struct answer reading(struct line line, uint32_t price, struct bytes path, struct bytes word)
{
    struct answer answer = {0, price, path, word, line.work};
    return answer;
}

struct answer no_reading(struct line line)
{
    struct answer answer = {16, 0, NO_BYTES, NO_BYTES, line.work};
    return answer;
}

struct answer refused(uint32_t number)
{
    struct answer answer = {number, 0, NO_BYTES, NO_BYTES, 0};
    return answer;
}

/* The line with other lengths of path, word and work memory. */
static struct line with(struct line line, size_t path, size_t word, size_t work)
{
    line.path = path;
    line.word = word;
    line.work = work;
    return line;
}

void decodes(struct words form, struct line line, struct answer answer)
{
    size_t t = line.columns, need = line.work;
    hold_decode(form, line, answer);
    hold_decode(form, with(line, t + MORE, t + 2 * MORE, need + MORE), answer);
    hold_decode(form, with(line, t, t, need - 1), refused(15));
    if (t > 0) {
        hold_decode(form, with(line, t - 1, t, need), refused(14));
        hold_decode(form, with(line, t, t - 1, need), refused(14));
    }
}

void reads(struct bytes alphabet, struct bytes text, struct words form, struct line line, struct answer answer)
{
    size_t t = line.columns, need = line.work, length = form.length;
    hold_read(alphabet, text, line, length, form, answer);
    hold_read(alphabet, text, with(line, t + MORE, t + 2 * MORE, need + MORE), length + MORE, form, answer);
    hold_read(alphabet, text, line, length - 1, NO_WORDS, refused(10));
    hold_read(alphabet, text, with(line, t, t, need - 1), length, form, refused(15));
    if (t > 0) {
        hold_read(alphabet, text, with(line, t - 1, t, need), length, form, refused(14));
        hold_read(alphabet, text, with(line, t, t - 1, need), length, form, refused(14));
    }
}

struct line line_of_pair(struct words first, struct words second, const uint32_t *costs, size_t columns)
{
    return line_of(letters_of(first) < letters_of(second) ? second : first, costs, columns);
}

struct comparison apart(struct line line, int32_t difference)
{
    struct comparison comparison = {0, difference, line.work};
    return comparison;
}

struct comparison no_comparison(struct line line)
{
    struct comparison comparison = {16, 0, line.work};
    return comparison;
}

struct comparison not_compared(uint32_t number)
{
    struct comparison comparison = {number, 0, 0};
    return comparison;
}

static void compares_in_order(struct words first, struct words second, struct line line, struct comparison comparison)
{
    hold_compare(first, second, line, comparison);
    hold_compare(first, second, with(line, 0, 0, line.work + MORE), comparison);
    hold_compare(first, second, with(line, 0, 0, line.work - 1), not_compared(15));
}

void compares(struct words first, struct words second, struct line line, struct comparison comparison)
{
    compares_in_order(first, second, line, comparison);
    comparison.difference = -comparison.difference;
    compares_in_order(second, first, line, comparison);
}
