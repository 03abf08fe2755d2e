/* Forms and shapes of matrices that are refused by every call that takes one. */
#ifndef FAULTS_H
#define FAULTS_H

#include "lists.h"

enum { BAD_FORMS = 22, BAD_SHAPES = 17 };

/* A list that is no form, by its number. */
struct words bad_form(size_t n);

/* Shapes of no matrix for K = 2: the length of the list, 768 at most, the width, the number of columns. */
extern const size_t BAD_SHAPE[BAD_SHAPES][3];

#endif
