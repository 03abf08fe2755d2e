/* The words of at most COLUMNS labels that a form, an expression or a list of words accepts, found without the calls. */
#ifndef LANGUAGES_H
#define LANGUAGES_H

#include "lists.h"
#include "search.h"

/* By walks over the form's letters. */
struct language language_of_form(struct words form);

/* By POSIX's own matcher, regcomp. */
struct language language_of_text(const char *alphabet, const char *text);

/* By the lines of the list. */
struct language language_of_list(const char *alphabet, const char *list);

#endif
