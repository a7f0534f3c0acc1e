/* The driver on a machine with a C library: driver [CALLS [SEED]], 200,000 and 1 if not given. Says a line for each call with its sum and how often each number
 * was answered, and one for all. Ends with 1 where a call wrote outside what it was lent or where a number that must be seen was not. */
#include <stdio.h>
#include <stdlib.h>

#include "driver.h"

enum { WHOLE = 100000 }; /* so many calls see everything that must be seen */

void driver_say(const char *text)
{
    fputs(text, stdout);
}

void driver_call(enum call which, void (*made)(void))
{
    if (which == CALLS) {
        fflush(stdout);
        exit(1);
    }
    made();
}

int main(int argc, char **argv)
{
    unsigned long long calls = argc > 1 ? strtoull(argv[1], 0, 10) : 200000, seed = argc > 2 ? strtoull(argv[2], 0, 10) : 1;
    return driver_run(calls, seed, calls >= WHOLE);
}
