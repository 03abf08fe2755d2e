/* Makes the calls through their header alone. */
#include "held.h"

#include <string.h>

#include "kavurehy.h"

enum call { COMPILE, COMPILE_LIST, JUDGE, COLLAPSE, SPREAD, DECODE, COMPARE, READ, COSTS, CALLS };

/* A call's name, and a bit for each number that it returns according to the header. */
static const struct {
    const char *name;
    uint32_t numbers;
} CALL[CALLS] = {
    {"compile", 0x0807ff},      /* 0 to 10, 19 */
    {"compile_list", 0x20070f}, /* 0 to 3, 8 to 10, 21 */
    {"judge", 0x020801},        /* 0, 11, 17 */
    {"collapse", 0x024001},     /* 0, 14, 17 */
    {"spread", 0x024001},       /* 0, 14, 17 */
    {"decode", 0x01f801},       /* 0, 11 to 16 */
    {"compare", 0x01b801},      /* 0, 11 to 13, 15, 16 */
    {"read", 0x09f7ff},         /* 0 to 10, 12 to 16, 19 */
    {"costs", 0x004001},        /* 0, 14 */
};

static uint32_t seen[CALLS];
static unsigned long made;

static void answered(enum call call, uint32_t number, uint32_t expected)
{
    if (number != expected)
        fail("the answer is %lu, and %lu is expected", (unsigned long)number, (unsigned long)expected);
    seen[call] |= (uint32_t)1 << number;
    made++;
}

unsigned long calls_made(void)
{
    for (int call = 0; call < CALLS; call++) {
        calling("%s", CALL[call].name);
        for (int number = 0; number < 32; number++)
            if ((seen[call] >> number & 1) != (CALL[call].numbers >> number & 1))
                fail("%d was %s", number, seen[call] >> number & 1 ? "answered" : "never answered");
    }
    return made;
}

void hold_compile(struct bytes alphabet, struct bytes text, size_t memory, uint32_t number, struct words form)
{
    struct list a = given_bytes(alphabet), t = given_bytes(text);
    struct list f = lent_words(memory), counts = lent_words(1);
    uint32_t count = (uint32_t)form.length;
    calling("compile of %.*s in %zu words", (int)text.length, (const char *)text.first, memory);
    answered(COMPILE, kavurehy_compile(a.first, a.length, t.first, t.length, f.first, f.length, counts.first), number);
    kept("alphabet", &a);
    kept("text", &t);
    wrote("form", &f, form.first, form.length);
    wrote("counts", &counts, &count, 1);
}

void hold_compile_list(struct bytes alphabet, struct bytes list, size_t memory, uint32_t number, struct words form)
{
    struct list a = given_bytes(alphabet), l = given_bytes(list);
    struct list f = lent_words(memory), counts = lent_words(1);
    uint32_t count = (uint32_t)form.length;
    calling("compile_list over %.*s in %zu words of %.*s", (int)alphabet.length, (const char *)alphabet.first, memory, (int)list.length,
            (const char *)list.first);
    answered(COMPILE_LIST, kavurehy_compile_list(a.first, a.length, l.first, l.length, f.first, f.length, counts.first), number);
    kept("alphabet", &a);
    kept("list", &l);
    wrote("form", &f, form.first, form.length);
    wrote("counts", &counts, &count, 1);
}

void hold_judge(struct words form, struct bytes word, uint32_t number, uint32_t accepted)
{
    struct list f = given_words(form), w = given_bytes(word), counts = lent_words(1);
    calling("judge of %zu labels by a form of %zu words", word.length, form.length);
    answered(JUDGE, kavurehy_judge(f.first, f.length, w.first, w.length, counts.first), number);
    kept("form", &f);
    kept("word", &w);
    wrote("accepted", &counts, &accepted, 1);
}

void hold_collapse(size_t k, struct bytes path, size_t memory, uint32_t number, struct bytes word)
{
    struct list p = given_bytes(path), w = lent_bytes(memory), counts = lent_words(1);
    uint32_t count = (uint32_t)word.length;
    calling("collapse of %zu labels to %zu in %zu bytes, k = %zu", path.length, word.length, memory, k);
    answered(COLLAPSE, kavurehy_collapse(k, p.first, p.length, w.first, w.length, counts.first), number);
    kept("path", &p);
    wrote("word", &w, word.first, word.length);
    wrote("counts", &counts, &count, 1);
}

void hold_spread(size_t k, struct bytes word, size_t memory, uint32_t number, struct bytes path)
{
    struct list w = given_bytes(word), p = lent_bytes(memory), counts = lent_words(1);
    uint32_t count = (uint32_t)path.length;
    calling("spread of %zu labels to %zu in %zu bytes, k = %zu", word.length, path.length, memory, k);
    answered(SPREAD, kavurehy_spread(k, w.first, w.length, p.first, p.length, counts.first), number);
    kept("word", &w);
    wrote("path", &p, path.first, path.length);
    wrote("counts", &counts, &count, 1);
}

void hold_costs(struct bytes confidences, size_t memory, uint32_t number, struct words costs)
{
    struct list from = given_bytes(confidences), to = lent_words(memory);
    calling("costs of %zu confidences in %zu words", confidences.length, memory);
    answered(COSTS, kavurehy_costs(from.first, from.length, to.first, to.length), number);
    kept("confidences", &from);
    wrote("costs", &to, costs.first, costs.length);
}

/* The memory that decode and read have in common. */
struct lent {
    struct list costs, path, word, work;
};

static struct lent lend(struct line line)
{
    struct lent lent = {given_words(line.costs), lent_bytes(line.path), lent_bytes(line.word), lent_words(line.work)};
    return lent;
}

static void hold_lent(struct lent *lent, struct answer answer, const uint8_t *word)
{
    kept("costs", &lent->costs);
    wrote("path", &lent->path, answer.path.first, answer.path.length);
    wrote("word", &lent->word, word, answer.word.length);
    used("work", &lent->work, answer.work);
}

void hold_decode(struct words form, struct line line, struct answer answer)
{
    struct list f = given_words(form), counts = lent_words(2);
    struct lent m = lend(line);
    uint32_t expected[2] = {answer.price, (uint32_t)answer.word.length};
    calling("decode of %zu columns by a form of %zu words in %zu, %zu and %zu", line.columns, form.length, line.path, line.word, line.work);
    answered(DECODE,
             kavurehy_decode(f.first, f.length, m.costs.first, m.costs.length, line.width, line.columns, m.path.first, m.path.length,
                             m.word.first, m.word.length, m.work.first, m.work.length, counts.first),
             answer.number);
    kept("form", &f);
    wrote("counts", &counts, expected, 2);
    hold_lent(&m, answer, answer.word.first);
}

void hold_compare(struct words first, struct words second, struct line line, struct comparison comparison)
{
    int same = first.first == second.first && first.length == second.length;
    struct list one = given_words(first), two = same ? one : given_words(second), costs = given_words(line.costs);
    struct list work = lent_words(line.work), difference = lent_words(1);
    calling("compare of %zu columns by forms of %zu and %zu words in %zu", line.columns, first.length, second.length, line.work);
    answered(COMPARE,
             kavurehy_compare(one.first, one.length, two.first, two.length, costs.first, costs.length, line.width, line.columns, work.first,
                              work.length, difference.first),
             comparison.number);
    long found = *(const int32_t *)difference.first;
    if (found != comparison.difference)
        fail("the difference is %ld, and %ld is expected", found, (long)comparison.difference);
    used("difference", &difference, 1);
    used("work", &work, comparison.work);
    kept("costs", &costs);
    kept("first form", &one);
    if (!same)
        kept("second form", &two);
}

void hold_read(struct bytes alphabet, struct bytes text, struct line line, size_t memory, struct words form, struct answer answer)
{
    struct list a = given_bytes(alphabet), t = given_bytes(text);
    struct list f = lent_words(memory), counts = lent_words(3);
    struct lent m = lend(line);
    uint32_t expected[3] = {answer.price, (uint32_t)answer.word.length, answer.number == 0 ? (uint32_t)form.length : 0};
    uint8_t characters[255];
    for (size_t n = 0; n < answer.word.length; n++)
        characters[n] = alphabet.first[answer.word.first[n] - 1];
    calling("read of %zu columns by %.*s in %zu, %zu, %zu and %zu", line.columns, (int)text.length, (const char *)text.first, memory,
            line.path, line.word, line.work);
    answered(READ,
             kavurehy_read(a.first, a.length, t.first, t.length, m.costs.first, m.costs.length, line.width, line.columns, f.first, f.length,
                           m.path.first, m.path.length, m.word.first, m.word.length, m.work.first, m.work.length, counts.first),
             answer.number);
    kept("alphabet", &a);
    kept("text", &t);
    wrote("form", &f, form.first, form.length);
    wrote("counts", &counts, expected, 3);
    hold_lent(&m, answer, characters);
}

struct words compiled(const char *alphabet, const char *text, uint32_t *words, size_t memory)
{
    uint32_t counts[1];
    calling("compile of %s", text);
    if (kavurehy_compile((const uint8_t *)alphabet, strlen(alphabet), (const uint8_t *)text, strlen(text), words, memory, counts) != 0)
        fail("it refuses the expression");
    return (struct words){words, counts[0]};
}
