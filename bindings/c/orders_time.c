/* Reads a file of records again and again, with scratch for every byte of it or with none.
 *
 *     orders_time FORMAT TIMES FILE [SCRATCH]    FORMAT is 0 for Intel HEX, 1 for S-records; SCRATCH, 131,072 unless it is given, the bytes of scratch
 *
 * Prints what the last call answered: the refusal, how many blocks, and the sum of the bytes. The status is 2 where the file cannot be read. */
#include <inttypes.h>
#include <stdio.h>
#include <stdlib.h>
#include <string.h>

#include "../../include/denkumari.h"

#define LOADED 1048576
#define BLOCKS 1048576
#define TEXT 41943040

static uint8_t text[TEXT], fetched[LOADED], scratch[LOADED / 8];
static uint64_t offsets[BLOCKS], sizes[BLOCKS];

int main(int argc, char **argv)
{
    if (argc < 4 || argc > 5)
        return 2;
    FILE *file = fopen(argv[3], "rb");
    if (!file)
        return 2;
    size_t length = fread(text, 1, TEXT, file);
    if (fclose(file) != 0 || length == TEXT)
        return 2;
    size_t lent = argc > 4 ? strtoul(argv[4], NULL, 10) : sizeof scratch;
    if (lent > sizeof scratch)
        return 2;
    struct dk_count last = {0, 0, 0};
    for (long n = atol(argv[2]); n > 0; n--)
        last = dk_read_records((uint8_t)atoi(argv[1]), text, length, 0, fetched, LOADED, offsets, BLOCKS, sizes, BLOCKS, scratch, lent);
    uint64_t sum = 0;
    for (size_t i = 0; i < LOADED; i++)
        sum += fetched[i];
    printf("%" PRIu64 " %" PRIu64 " %" PRIu64 "\n", last.refusal, last.count, sum);
    return 0;
}
