/* The call compile_list, compared with what follows from the beginnings of the list's lines. */
#ifndef BEGINNINGS_H
#define BEGINNINGS_H

#include "lists.h"

/* Makes the call with the memory that it needs, with more and with less; at refusals other than 10 with none and with some. Returns the
   number, and sets the form, which is empty at a refusal and is overwritten at the next use. */
uint32_t hold_list(struct bytes alphabet, struct bytes list, struct words *form);

#endif
