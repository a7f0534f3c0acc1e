/* The library as a side of the comparison of records (oracle/README.md, "Records"): a request a line on standard input, an answer a line, with all that was
 * lent as it is after the call. */
#include <inttypes.h>
#include <stdio.h>
#include <stdlib.h>
#include <string.h>

#include "../../include/denkumari.h"

enum { WORDS = 8, LINE = 1 << 22, BYTES = 1 << 20, LIST = 1 << 16 };

static char line[LINE];
static uint8_t image[BYTES], text[BYTES];
static uint64_t offsets[LIST], sizes[LIST];

static size_t octets(const char *word, uint8_t *to)
{
    size_t n = 0;
    unsigned byte;
    for (; word[0] != '-' && sscanf(word, "%2x", &byte) == 1 && n < BYTES; word += 2)
        to[n++] = (uint8_t)byte;
    return n;
}

static size_t listed(char *word, uint64_t *to)
{
    size_t n = 0;
    while (word[0] != '-' && *word && n < LIST) {
        to[n++] = strtoull(word, &word, 10);
        word += *word == ',';
    }
    return n;
}

static void print_octets(const uint8_t *from, size_t n)
{
    putchar(' ');
    if (n == 0)
        putchar('-');
    for (size_t i = 0; i < n; i++)
        printf("%02x", from[i]);
}

static void print_list(const uint64_t *from, size_t n)
{
    fputs(n ? " " : " -", stdout);
    for (size_t i = 0; i < n; i++)
        printf("%s%" PRIu64, i ? "," : "", from[i]);
}

static void print_count(struct dk_count r)
{
    if (r.refusal == DK_ACCEPTED)
        printf("ok %" PRIu64, r.count);
    else
        printf("refused %" PRIu64 " %" PRIu64, r.refusal, r.place);
}

/* `hex`, `srec`, or a number that is no format */
static uint8_t format(const char *kind)
{
    if (*kind >= '0' && *kind <= '9')
        return (uint8_t)strtoul(kind, NULL, 10);
    return strcmp(kind, "hex") == 0 ? DK_INTEL_HEX : DK_S_RECORDS;
}

/* write KIND WIDTH LOAD IMAGE STARTS SIZES ROOM */
static void write_records(char **words)
{
    uint32_t load = (uint32_t)strtoul(words[3], NULL, 10);
    size_t n = octets(words[4], image), count = listed(words[5], offsets), lengths = listed(words[6], sizes), room = strtoul(words[7], NULL, 10);
    memset(text, 0xa5, room);
    print_count(format(words[1]) == DK_INTEL_HEX
                    ? dk_write_hex(image, n, offsets, count, sizes, lengths, load, text, room)
                    : dk_write_srec(image, n, offsets, count, sizes, lengths, load, (uint8_t)strtoul(words[2], NULL, 10), text, room));
    print_octets(text, room);
}

/* Marks, none in one call of five, and that they are zeros again. */
static uint8_t scratch[4];

static size_t marked(void)
{
    static size_t calls;
    for (size_t i = 0; i < sizeof scratch; i++)
        if (scratch[i]) {
            puts("scratch were left");
            exit(1);
        }
    return calls++ % 5;
}

/* read KIND LOAD BYTES LISTS FILE */
static void read_records(char **words)
{
    uint32_t load = (uint32_t)strtoul(words[2], NULL, 10);
    size_t n = octets(words[3], image), lists = strtoul(words[4], NULL, 10), length = octets(words[5], text);
    for (size_t i = 0; i < lists; i++) {
        offsets[i] = 1000003 * (i + 1) + 1;
        sizes[i] = 1000003 * (i + 1) + 2;
    }
    print_count(dk_read_records(format(words[1]), text, length, load, image, n, offsets, lists, sizes, lists, scratch, marked()));
    print_octets(image, n);
    print_list(offsets, lists);
    print_list(sizes, lists);
}

/* fault KIND LOAD FILE */
static void find_fault(char **words)
{
    size_t length = octets(words[3], text);
    struct dk_fault r = dk_record_fault(format(words[1]), text, length, (uint32_t)strtoul(words[2], NULL, 10), scratch, marked());
    if (r.fault)
        printf("line %" PRIu64, r.line);
    else
        fputs("good", stdout);
}

/* extent KIND FILE */
static void find_extent(char **words)
{
    size_t length = octets(words[2], text);
    struct dk_extent r = dk_record_extent(format(words[1]), text, length, scratch, marked());
    if (r.refusal)
        printf("refused %" PRIu64 " 0", r.refusal);
    else
        printf("ok %" PRIu64 " %" PRIu64, r.lowest, r.end);
}

/* reason KIND LOAD FILE */
static void find_reason(char **words)
{
    size_t length = octets(words[3], text);
    struct dk_reason r = dk_record_reason(format(words[1]), text, length, (uint32_t)strtoul(words[2], NULL, 10), scratch, marked());
    printf("reason %" PRIu64 " %" PRIu64 " %" PRIu64 " %" PRIu64, r.reason, r.line, r.first, r.second);
}

int main(void)
{
    while (fgets(line, sizeof line, stdin)) {
        char *words[WORDS] = {0};
        size_t n = 0;
        for (char *word = strtok(line, " \n"); word && n < WORDS; word = strtok(NULL, " \n"))
            words[n++] = word;
        if (n == 8 && strcmp(words[0], "write") == 0)
            write_records(words);
        else if (n == 6 && strcmp(words[0], "read") == 0)
            read_records(words);
        else if (n == 3 && strcmp(words[0], "extent") == 0)
            find_extent(words);
        else if (n == 4 && strcmp(words[0], "fault") == 0)
            find_fault(words);
        else if (n == 4 && strcmp(words[0], "reason") == 0)
            find_reason(words);
        else
            return 1;
        putchar('\n');
    }
    return 0;
}
