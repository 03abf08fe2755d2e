/* The calls of libkavurehy.a, for C and C++ on x86-64 Linux. Each call is proved in Rattle to do what is said here, for every input:
   crates/kavurehy/src/lib.rt has the promises, and document 01 defines the words that are used below.

   A list is passed as a pointer to its first element and its length, the number of its elements. Lent memory is what a call may write: the
   lists whose pointers are not const, and the counts, accepted and difference. It may be uninitialised: apart from the contents of the work words, no
   result depends on what lent memory held before.

   The caller has these duties:
   - Pointers must not be null, even for length 0: the proofs do not cover null pointers. For length 0 any other pointer will do.
   - Each pointer must point to at least as many elements as its length says. All of them must be readable, and those of lent memory must be
     writable too. Const lists must be initialised.
   - Each pointer to uint32_t or int32_t must be aligned to 4 bytes.
   - Lent memory must not overlap any other list of the call, lent or const.
   - While a call runs, nothing else may write its lists, and nothing else may read its lent memory.
   - The stack must be large enough. The proofs do not count it: compile and read were seen to use up to 269 kB, decode 23 kB, compare and
     compile_list 20 kB, the other calls less than 4 kB.

   A call keeps no pointer and no state. Calls from several threads at once are safe if they share no lent memory: the lent memory of one
   call must not overlap any list of another. Const lists may be shared.

   K is the length of the alphabet, label x from 1 to K is its x-th character, and 0 is the blank. An alphabet may list a character more
   than once: it then has several labels, as a 7 that is written in two shapes. Equal neighbours of a path are equal labels, so two labels of
   one character side by side are two characters without a blank between. A column of a matrix has the costs of labels 0 to K: each is at
   most 1,000,000, or KAVUREHY_BARRED if the label is barred in that column. A form is a list of 32-bit words; its first word has L, the
   number of letters, in bits 0 to 7, and K in bits 16 to 23. Decode and read need (columns + 1) * (2 * L + 1) work words, compare as many as
   that for the form with more letters. No call needs more than 65,280, that is 256 * 255, for 255 columns and 127 letters.

   Each call returns 0, or the number of the refusal that applies:
      1 alphabet       not 1 to 95 bytes, each 32 to 126
      2 text length    0 or over 255; compile_list: 0 or over 4,096
      3 text byte      a byte outside 32 to 126; compile_list: such a byte other than a newline
      4 misplaced sign a repetition with nothing to repeat, or after another repetition, except one ?; an empty branch or group; a stray or
                       missing ); ^ or $ outside brackets without \ before it; \ not before a sign that it makes ordinary
      5 depth          a 17th open group
      6 count          braces ill-formed or out of range
      7 bracket        unclosed, a descending range, a hyphen where no item may begin with it, [. or [= inside, [: without :] after it, or
                       a class as the end of a range
      8 foreign        a character or a bracket without any label in the alphabet
      9 letters        more than 127
     10 form memory    shorter than the form
     11 bad form       the list is no valid form; compare: one of the two lists or both
     12 matrix         more than 255 columns, a width other than K + 1 (compare: of both forms, so forms of unequal K are always turned
                       away), or a list whose length is not columns * width
     13 cost           a cost over 1,000,000, except KAVUREHY_BARRED
     14 output memory  decode, read: path or word memory shorter than the number of columns; collapse: shorter than the path;
                       spread: shorter than the path needed; costs: shorter than the number of confidences
     15 work           fewer than (columns + 1) * (2 * L + 1) words; compare: L of the form with more letters
     16 no reading     no path with one label for each column, none of them barred there, collapses to a word that the form accepts (read:
                       to a word of the expression); compare: this is so for one of the two forms or both
     17 label          K not 1 to 95, a label over K, 0 in a word, or a list longer than 255
     19 class name     a class [:name:] in a bracket whose name is not one of alnum alpha blank cntrl digit graph lower print punct space
                       upper xdigit
     21 word list      an empty line, a repeated line, or no newline at the end
   If several apply, the first in this order is returned: 1, 2, 3; then for a list 21, 8, and for an expression that of the leftmost fault
   in the text among 4 to 8 and 19, where 7, 19 and 8 of a bracket are at its [, and of faults at one byte the first in the order 4, 5, 6,
   7, 19, 8; then the lowest of 9 to 17. At a refusal each count is 0, and so are accepted[0] and difference[0]; all other lent memory is as
   it was, with two exceptions: after 16 the needed work words may hold anything, and after 12 to 16 the form memory of read is as compile
   leaves it. On success the memory after what is counted is as it was too. */
#ifndef KAVUREHY_H
#define KAVUREHY_H

#include <stddef.h>
#include <stdint.h>

/* The cost of a barred label. */
#define KAVUREHY_BARRED UINT32_C(4294967295)

#ifdef __cplusplus
extern "C" {
#endif

/* Writes the form of an expression over an alphabet to form, and its length to counts[0]. The form accepts a list of labels exactly if each
   is 1 to K and their characters are a word of the expression, by its text. A character, a range, . and a bracket mean all labels of their
   characters, and each of these is a letter. A bracket may have classes, as in [[:digit:].-]: the characters of the alphabet that are in
   the class of that name in the POSIX locale. No form is longer than 16,257 words: the head, 127 letters, an arc from each to each.
   Returns 0, or a refusal: 1 to 10, 19. */
uint32_t kavurehy_compile(const uint8_t *alphabet, size_t alphabet_length, const uint8_t *text, size_t text_length, uint32_t *form,
                          size_t form_memory, uint32_t counts[1]);

/* Writes the form of a list of words over an alphabet to form, and its length to counts[0]. In the list each word is closed by one newline,
   byte 10. The form accepts a list of labels exactly if each is 1 to K and their characters are a word of the list; so it never accepts the
   empty word. Its letters are those of the beginnings of the words, up to the whole words, in the order in which reading the list from its
   first byte first completes them; a beginning has one letter for each label of its last character, ascending. Words with the same
   beginning share its letters. No form is longer than 16,257 words, as for compile. Returns 0, or a refusal: 1 to 3, 8 to 10, 21. */
uint32_t kavurehy_compile_list(const uint8_t *alphabet, size_t alphabet_length, const uint8_t *list, size_t list_length, uint32_t *form,
                               size_t form_memory, uint32_t counts[1]);

/* Writes 1 to accepted[0] if the form accepts the word of labels 1 to K, and 0 otherwise, also at a refusal. Returns 0, or a refusal:
   11, 17. */
uint32_t kavurehy_judge(const uint32_t *form, size_t form_length, const uint8_t *word, size_t word_length, uint32_t accepted[1]);

/* Writes to word the word that a path of labels 0 to k collapses to: each run of equal neighbours merged into one, then the blanks deleted.
   Writes the word's length to counts[0]. Returns 0, or a refusal: 14 (word memory shorter than the path), 17. */
uint32_t kavurehy_collapse(size_t k, const uint8_t *path, size_t path_length, uint8_t *word, size_t word_memory, uint32_t counts[1]);

/* Writes to path the shortest path that collapses to a word of labels 1 to k: one blank between each two equal neighbours and nowhere else.
   Writes the path's length to counts[0]. Returns 0, or a refusal: 14 (path memory shorter than that), 17. */
uint32_t kavurehy_spread(size_t k, const uint8_t *word, size_t word_length, uint8_t *path, size_t path_memory, uint32_t counts[1]);

/* Reads a matrix, its columns one after another. Writes to path a path with one label for each column, none of them barred there, and to
   word the word that it collapses to, which the form accepts. Writes the price, the sum of the path's costs, to counts[0], and the word's
   length to counts[1]. No other such path is cheaper, and each that is as cheap comes later in the order of the labels. The needed work
   words, (columns + 1) * (2 * L + 1) for a form of L letters, may hold anything afterwards; the others are as they were. Returns 0, or a
   refusal: 11 to 16. */
uint32_t kavurehy_decode(const uint32_t *form, size_t form_length, const uint32_t *costs, size_t costs_length, size_t width, size_t columns,
                         uint8_t *path, size_t path_memory, uint8_t *word, size_t word_memory, uint32_t *work, size_t work_memory,
                         uint32_t counts[2]);

/* Reads a matrix with two forms. Writes to difference[0] the price that decode reports with the first less that with the second: it is
   negative if the first is cheaper, and from -255,000,000 to 255,000,000. If the forms are exchanged, the difference changes its sign, and a
   refusal is the same. No path and no word are written. The needed work words, (columns + 1) * (2 * L + 1) with L the larger number of
   letters of the two, may hold anything afterwards; the others are as they were. Returns 0, or a refusal: 11 to 13, 15, 16. */
uint32_t kavurehy_compare(const uint32_t *first, size_t first_length, const uint32_t *second, size_t second_length, const uint32_t *costs,
                          size_t costs_length, size_t width, size_t columns, uint32_t *work, size_t work_memory, int32_t difference[1]);

/* Compiles an expression over an alphabet and reads a matrix with it. Writes the form as compile does, and path and word as decode does,
   except that the word is in characters of the alphabet: a word of the expression takes the place of one that the form accepts. Writes the
   price to counts[0], the word's length to counts[1] and the form's to counts[2]. The needed work words, (columns + 1) * (2 * L + 1) for an
   expression of L letters, may hold anything afterwards; the others are as they were. Returns 0, or a refusal: 1 to 10, 12 to 16, 19. After
   12 to 16 the form memory holds the form, though counts[2] is 0: after 15 its first word says how many work words are needed. */
uint32_t kavurehy_read(const uint8_t *alphabet, size_t alphabet_length, const uint8_t *text, size_t text_length, const uint32_t *costs,
                       size_t costs_length, size_t width, size_t columns, uint32_t *form, size_t form_memory, uint8_t *path,
                       size_t path_memory, uint8_t *word, size_t word_memory, uint32_t *work, size_t work_memory, uint32_t counts[3]);

/* Writes to costs one cost for each confidence c: KAVUREHY_BARRED for 0, else the largest whole n with 2^n * c^8 <= 2^64. Returns 0, or
   refusal 14. */
uint32_t kavurehy_costs(const uint8_t *confidences, size_t confidences_length, uint32_t *costs, size_t costs_memory);

#ifdef __cplusplus
}
#endif

#endif
