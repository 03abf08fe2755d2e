/* Every refusal of every call but compile_list and compare, by itself and with later ones. */
#include "tests.h"

#include <string.h>

#include "faults.h"
#include "kavurehy.h"
#include "rooms.h"

/* Compile and read refuse this text, whatever the form memory is; read, whatever the matrix and its memory are. */
static void refuse_text(struct bytes alphabet, struct bytes text, uint32_t number)
{
    static const uint32_t FREE[97], DEAR[1] = {1000001};
    size_t width = alphabet.length + 1;
    struct line good = {{FREE, width}, width, 1, 1, 1, 510}, bad = {{DEAR, 1}, width + 1, 300, 0, 0, 0};
    for (size_t memory = 0; memory <= 300; memory += 300) {
        hold_compile(alphabet, text, memory, number, NO_WORDS);
        hold_read(alphabet, text, good, memory, NO_WORDS, refused(number));
        hold_read(alphabet, text, bad, memory, NO_WORDS, refused(number));
    }
}

static void alphabets_and_lengths(void)
{
    uint8_t many[96], repeated[96], longest[256];
    for (size_t n = 0; n < 96; n++) {
        many[n] = (uint8_t)(32 + n);
        repeated[n] = (uint8_t)"bab"[n % 3];
    }
    memset(longest, 'a', sizeof longest);
    longest[0] = '[';
    struct bytes alphabets[] = {TEXT(""),     {repeated, 96}, TEXT("bab\x7f"), TEXT("a\n"),
                                TEXT("\x1f"), TEXT("\x7f"),   TEXT("a\x80"),   {many, 96}};
    for (size_t n = 0; n < sizeof alphabets / sizeof *alphabets; n++) {
        refuse_text(alphabets[n], TEXT("a"), 1);
        refuse_text(alphabets[n], TEXT(""), 1);
        refuse_text(alphabets[n], TEXT("*\n"), 1);
    }
    refuse_text((struct bytes){repeated, 95}, TEXT(""), 2);
    longest[255] = ']';
    refuse_text(TEXT("a"), (struct bytes){longest, 256}, 2);
    refuse_text(TEXT("a"), TEXT(""), 2);
    longest[254] = ']';
    compiles(TEXT("a"), (struct bytes){longest, 255}, WORDS(0x10010001, 0x20000301));
    refuse_text(TEXT("a"), BYTES('a', 0), 3);
    refuse_text(TEXT("a"), BYTES('*', 31), 3);
    refuse_text(TEXT("a"), BYTES(127), 3);
    refuse_text(TEXT("a"), BYTES('a', 128, '{'), 3);
}

/* Texts over the alphabet ab; if one has several faults, the leftmost counts, and 4 to 8 and 19 come before 9. At one bracket 19 comes
   after 7 and before 8. */
static void texts(void)
{
    static const struct {
        uint32_t number;
        const char *texts[12];
    } REFUSED[] = {
        {4, {"*", "a**", "a*??", "()", "a|", "|a", ")", "(a", "^", "a$", "\\a", "\\"}},
        {5, {"(((((((((((((((((a)))))))))))))))))", "a(((((((((((((((((c"}},
        {6, {"a{", "a{1", "a{0}", "a{2,1}", "a{256}", "a{1,256}", "a{0001}", "a{,2}", "a{b}", "a{0}c"}},
        {7, {"[", "[a", "[]", "[b-a]", "[a--]", "[[.a.]]", "[[=a=]]", "[a[:]", "[b-a]c"}},
        {7, {"[[:]]", "[[:alpha]", "[[:alpha:]", "[a-[:alpha:]]", "[[:alpha:]-b]", "[[:x:]b-a]", "[[:x[.:]]", "[b-a][[:x:]]"}},
        {19, {"[[:x:]]", "[[::]]", "[^[:Alpha:]]", "[[:alpha:][:a]b:]]", "[[:[:alpha:]]", "[[:x:]c]", "[[:x:]]c", "[[:x:]]**", "([[:x:]]",
              "a{128}[[:x:]]"}},
        {8, {"c", "[c]", "[^ab]", "\\(", "]", "c**", "(c", "a{255}c", "[[:digit:]]", "[^[:alpha:]]", "c[[:x:]]"}},
        {9, {"a{128}", "a{255}", "(a{16}){8}", ".{64}", "((a{255}){255}){255}"}},
        {4, {"a**c", "*(((((((((((((((((", "(|c)", "a|)c", "*[", "+{0}"}},
    };
    for (size_t n = 0; n < sizeof REFUSED / sizeof *REFUSED; n++)
        for (size_t m = 0; m < 12 && REFUSED[n].texts[m] != NULL; m++)
            refuse_text(TEXT("ab"), TEXT(REFUSED[n].texts[m]), REFUSED[n].number);
}

/* A repeated character is no fault of the alphabet; 8 is no label at all, and 9 counts labels. */
static void repeated_characters(void)
{
    uint8_t sevens[95];
    memset(sevens, '7', sizeof sevens);
    refuse_text(TEXT("aa"), TEXT("*"), 4);
    refuse_text(TEXT("bab"), TEXT("a{0}"), 6);
    refuse_text(TEXT("77"), TEXT("[^7]"), 8);
    refuse_text(TEXT("77"), TEXT("7a"), 8);
    refuse_text(TEXT("777"), TEXT("7{43}"), 9);
    refuse_text((struct bytes){sevens, 95}, TEXT("77"), 9);
}

/* Judge and decode refuse this form, whatever the word or the matrix and its memory are. */
static void refuse_form(struct words form)
{
    static const uint32_t FREE[3], DEAR[1] = {1000001};
    struct line good = {{FREE, 3}, 3, 1, 1, 1, 510}, bad = {{DEAR, 1}, 4, 300, 0, 0, 0};
    hold_judge(form, BYTES(1), 11, 0);
    hold_judge(form, BYTES(0, 255), 11, 0);
    hold_decode(form, good, refused(11));
    hold_decode(form, bad, refused(11));
}

static void forms(void)
{
    uint32_t letters[129] = {0x10020080};
    for (size_t n = 1; n < 129; n++)
        letters[n] = 0x20000301;
    refuse_form((struct words){letters, 129});
    letters[0]--;
    hold_judge((struct words){letters, 128}, BYTES(1), 0, 1);
    for (size_t n = 0; n < BAD_FORMS; n++)
        refuse_form(bad_form(n));
}

/* Decode and read of ab* with one line, and the number that both should return. */
static void refuse_line(struct line line, uint32_t number)
{
    struct words form = WORDS(0x10020002, 0x20000301, 0x20000202, 0x30000102, 0x30000202);
    hold_decode(form, line, refused(number));
    hold_read(TEXT("ab"), TEXT("ab*"), line, 5, form, refused(number));
    hold_read(TEXT("ab"), TEXT("ab*"), line, 4, NO_WORDS, refused(10));
}

/* Refusal 12 by itself, and with all later ones. */
static void matrices(void)
{
    static uint32_t costs[768];
    for (size_t n = 0; n < BAD_SHAPES; n++) {
        struct line line = {{costs, BAD_SHAPE[n][0]}, BAD_SHAPE[n][1], BAD_SHAPE[n][2], 256, 256, 1285};
        costs[0] = 0;
        refuse_line(line, 12);
        costs[0] = 1000001;
        line.path = line.word = line.work = 0;
        refuse_line(line, 12);
    }
}

/* Refusal 13 by itself, and with all later ones: T = 1 and L = 2 need 10 work words. The cost of a barred label passes, so a later one is
   given. */
static void bad_costs(void)
{
    static const uint32_t BAD[] = {1000001, KAVUREHY_BARRED - 1};
    for (size_t n = 0; n < 3; n++) {
        uint32_t costs[3] = {0, 0, 0};
        for (size_t m = 0; m < sizeof BAD / sizeof *BAD; m++) {
            costs[n] = BAD[m];
            refuse_line((struct line){{costs, 3}, 3, 1, 1, 1, 10}, 13);
            refuse_line((struct line){{costs, 3}, 3, 1, 0, 0, 0}, 13);
        }
        costs[n] = KAVUREHY_BARRED;
        refuse_line((struct line){{costs, 3}, 3, 1, 0, 0, 0}, 14);
        refuse_line((struct line){{costs, 3}, 3, 1, 1, 1, 9}, 15);
    }
}

/* Refusals 14 to 16, each with all later ones; T = 0 has no reading. */
static void memories(void)
{
    uint32_t costs[3] = {0, 0, 0};
    refuse_line((struct line){{costs, 3}, 3, 1, 0, 1, 10}, 14);
    refuse_line((struct line){{costs, 3}, 3, 1, 1, 0, 10}, 14);
    refuse_line((struct line){{costs, 3}, 3, 1, 0, 0, 0}, 14);
    refuse_line((struct line){{costs, 3}, 3, 1, 1, 1, 9}, 15);
    refuse_line((struct line){{costs, 0}, 3, 0, 0, 0, 4}, 15);

    struct words ab = WORDS(0x10020002, 0x20000101, 0x20000202, 0x30000102), no_first = WORDS(0x10020001, 0x20000201);
    struct line one = line_of(ab, costs, 1), none = line_of(no_first, costs, 1);
    decodes(ab, one, no_reading(one));
    reads(TEXT("ab"), TEXT("ab"), ab, one, no_reading(one));
    decodes(no_first, none, no_reading(none));
}

/* Refusal 17 by itself, and after 14. */
static void label_lists(void)
{
    static uint8_t ones[256];
    struct words form = WORDS(0x10020001, 0x20000301, 0x30000101);
    memset(ones, 1, sizeof ones);
    struct bytes longest = {ones, 255}, too_long = {ones, 256};
    size_t k[] = {0, 96, 256, 257, SIZE_MAX};
    for (size_t n = 0; n < sizeof k / sizeof *k; n++) {
        hold_collapse(k[n], BYTES(1), 1, 17, NO_BYTES);
        hold_collapse(k[n], BYTES(1), 0, 14, NO_BYTES);
        hold_collapse(k[n], NO_BYTES, 0, 17, NO_BYTES);
        hold_spread(k[n], BYTES(1, 1), 3, 17, NO_BYTES);
        hold_spread(k[n], BYTES(1, 1), 2, 14, NO_BYTES);
        hold_spread(k[n], NO_BYTES, 0, 17, NO_BYTES);
    }
    collapses(95, longest, BYTES(1));
    hold_collapse(95, too_long, 256, 17, NO_BYTES);
    hold_collapse(2, BYTES(0, 3), 2, 17, NO_BYTES);
    hold_collapse(2, BYTES(255), 1, 17, NO_BYTES);
    hold_spread(95, too_long, 511, 17, NO_BYTES);
    hold_spread(95, too_long, 510, 14, NO_BYTES);
    hold_spread(2, BYTES(1, 3), 2, 17, NO_BYTES);
    hold_spread(2, BYTES(1, 0), 2, 17, NO_BYTES);
    hold_judge(form, longest, 0, 1);
    hold_judge(form, too_long, 17, 0);
    hold_judge(form, BYTES(1, 0), 17, 0);
    hold_judge(form, BYTES(1, 3), 17, 0);
    hold_judge(form, BYTES(2), 0, 0);
}

void refusals(void)
{
    alphabets_and_lengths();
    texts();
    repeated_characters();
    forms();
    matrices();
    bad_costs();
    memories();
    label_lists();
}
