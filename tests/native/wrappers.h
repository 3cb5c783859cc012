#ifndef GUONTREM_TEST_WRAPPERS_H
#define GUONTREM_TEST_WRAPPERS_H

#include "pairs.h"

/* A call by the header's struct on the words from before, beside the plain one: answers, words and rows, and what the readers say. */
void compare_wrapped(const struct pair *p, const struct call *c);
/* Ends the program where an initializer or a reader does not say what it should of a store's life. */
void check_wrappers(void);

#endif
