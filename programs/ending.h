/* How the programs of this folder end: the exit statuses, and the question whether all that was printed was also written. */
#ifndef ENDING_H
#define ENDING_H

#include <stdio.h>

enum ending {
    ENDED_WELL = 0,
    ENDED_REFUSED = 1, /* the input is not what it should be */
    ENDED_FAILED = 2   /* usage, or reading or writing did not work */
};

/* The status that a program ends with. What is printed may be held back until the end, so that a full disk shows only when
 * standard output is closed. */
static inline int ended(const char *program, int status)
{
    int failed = ferror(stdout);
    if (fclose(stdout) != 0 || failed) {
        fprintf(stderr, "%s: standard output cannot be written\n", program);
        return ENDED_FAILED;
    }
    return status;
}

#endif
