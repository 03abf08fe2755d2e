/* The calls of libkavurehy.a from C, by include/kavurehy.h: every test with guards around each list, then again with lent memory that is
   uninitialised. Prints one line, or exits with 1 at the first difference. */
#include <stdio.h>

#include "held.h"
#include "tests.h"

int main(void)
{
    for (guarded = 1; guarded >= 0; guarded--) {
        lines();
        refusals();
        word_lists();
        list_limits();
        labels();
        small_matrices();
        comparisons();
        pairs();
    }
    printf("%lu calls from C did what the header says\n", calls_made());
    return 0;
}
