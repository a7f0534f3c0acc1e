/* The driver: random, edge and damaged calls of every exported function, from a seed. Whatever a call answers and whatever it was lent goes into a sum, numbers
 * taken as numbers, so that the sum is the same on every machine where the answers are. It stands by itself, without a C library: a platform has the two
 * functions at the end of this file. */
#ifndef DRIVER_H
#define DRIVER_H

#include "../include/denkumari.h"

/* The calls, and behind them what is counted beside them: the profile's rules, the images that a range comes from, the kinds of a run, reasons, places of 14,
 * forms accepted. */
enum call {
    BUILD, BUILD_PAGED, PROFILE, MAP, FORM, FORM_PAGED, TO_FORM2, TO_FORM1, BLOCKS, HEX, OFFER, OFFERS, PART, OVERLAY_RANGE, OVERLAY_RUNS, VERIFY,
    WRITE_HEX, WRITE_SREC, READ_RECORDS, RECORD_EXTENT, RECORD_FAULT, RECORD_REASON, CALLS,
    RULES = CALLS, IMAGES, KINDS, SHORT_PLACES, SHORT_FORMS, FORMS_BUILT, STOPPED, FORMATS_READ, OFFERS_KEPT, COUNTED
};

/* Random numbers. No expression has two of them in an order that C leaves open: they would be others under another compiler. */
uint64_t drawn(void);
uint64_t below(uint64_t limit);  /* from 0 to limit - 1 */
int one_in(uint64_t often);
uint64_t edge(void);             /* at or near a limit of some kind, or small */

/* What is lent. Each buffer has exactly its elements, with guards on both sides; all of them go at the next round. */
void *lend(size_t count, size_t width);                        /* filled with random numbers; width 1, 4 or 8 */
void *lend_copy(const void *from, size_t count, size_t width);
void lend_anew(void);                                          /* a round begins: nothing is lent */

/* Makes a call, counts its answer, `fields` numbers of which the first is the refusal, and adds it and everything lent to the call's sum. */
void called(enum call which, void (*made)(void), const uint64_t *answer, size_t fields);
void counted(enum call which, uint64_t number); /* one of those that must be seen was seen */

/* The rounds: each draws what is lent and makes some calls. */
void round_of_tables(void);
void round_of_files(void);
void round_of_records(void);
void round_of_overlays(void);
void round_of_readbacks(void);
void round_of_offers(void);
void round_of_spans(void);

/* Runs until so many calls were made, says a line for each, and ends with 0, or with 1 where a guard was touched or something that must be seen was not.
 * `whole` is 0 in a short run, of which nothing is asked but its sum. */
int driver_run(uint64_t calls, uint64_t seed, int whole);

/* The platform. */
void driver_say(const char *text);
void driver_call(enum call which, void (*made)(void)); /* makes the call, on the stack that it is to have */

#endif
