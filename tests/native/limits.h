#ifndef GUONTREM_TEST_LIMITS_H
#define GUONTREM_TEST_LIMITS_H

/* Ends the program where a limit of the header is not the archive's. */
void check_limits(void);

#endif
