/* Why a file of records is bad: a case for each reason in either format, with its numbers; and the room that records need. Its last line says how many cases
 * there were; the status is 1 where an answer is another. */
#include <inttypes.h>
#include <stdio.h>
#include <string.h>

#include "../../include/denkumari.h"

struct test {
    uint8_t format;
    uint32_t load;
    const char *text;
    struct dk_reason wanted;
};

#define HEX_END ":00000001FF\n"
#define S9_END "S9030000FC\n"

static const struct test tests[] = {
    /* good files: CR LF and LF, either case, no LF behind the last line */
    {DK_INTEL_HEX, 0, ":0100000041BE\r\n:00000001ff", {0, 0, 0, 0}},
    {DK_S_RECORDS, 0, "s1040000AA51\nS9030000FC", {0, 0, 0, 0}},
    /* no colon, no S, a blank line; behind it a wrong digit is not looked for */
    {DK_INTEL_HEX, 0, ":0100000041BE\nS1zz\n" HEX_END, {DK_NO_START, 1, 0, 0}},
    {DK_INTEL_HEX, 0, ":0100000041BE\n\n" HEX_END, {DK_NO_START, 1, 0, 0}},
    {DK_S_RECORDS, 0, ":00000001FF\n", {DK_NO_START, 0, 0, 0}},
    {DK_S_RECORDS, 0, "", {DK_NO_END_RECORD, 0, 0, 0}},
    /* no digit: its place and itself; a lone CR is a character of its line */
    {DK_INTEL_HEX, 0, ":01000000G1BE\n" HEX_END, {DK_NO_DIGIT, 0, 9, 'G'}},
    {DK_INTEL_HEX, 0, ":0100000041BE\r", {DK_NO_DIGIT, 0, 13, '\r'}},
    {DK_S_RECORDS, 0, "S10400@0AA51\n" S9_END, {DK_NO_DIGIT, 0, 6, '@'}},
    /* the length: characters, and what the count asks for; without a count the shortest record's */
    {DK_INTEL_HEX, 0, ":0200000041BE\n" HEX_END, {DK_LINE_LENGTH, 0, 13, 15}},
    {DK_INTEL_HEX, 0, ":0", {DK_LINE_LENGTH, 0, 2, 11}},
    {DK_S_RECORDS, 0, "S1050000AA51\n" S9_END, {DK_LINE_LENGTH, 0, 12, 14}},
    {DK_S_RECORDS, 0, "S1", {DK_LINE_LENGTH, 0, 2, 10}},
    /* the count */
    {DK_INTEL_HEX, 0, ":0100000100FE\n", {DK_RECORD_COUNT, 0, 1, 0}},
    {DK_INTEL_HEX, 0, ":0100000400FB\n" HEX_END, {DK_RECORD_COUNT, 0, 1, 2}},
    {DK_S_RECORDS, 0, "S100FF\n", {DK_LINE_LENGTH, 0, 6, 4}},
    {DK_S_RECORDS, 0, "S102FFFF\n", {DK_RECORD_COUNT, 0, 2, 3}},
    {DK_S_RECORDS, 0, "S303AAAAA8\n", {DK_RECORD_COUNT, 0, 3, 5}},
    {DK_S_RECORDS, 0, "S9040000AA51\n", {DK_RECORD_COUNT, 0, 4, 3}},
    {DK_S_RECORDS, 0, "S704000000FB\n", {DK_RECORD_COUNT, 0, 4, 5}},
    /* the checksum: found, wanted */
    {DK_INTEL_HEX, 0, ":0100000041BF\n" HEX_END, {DK_CHECKSUM, 0, 0xBF, 0xBE}},
    {DK_INTEL_HEX, 0, ":0100000041BE\n:00000001FE\n", {DK_CHECKSUM, 1, 0xFE, 0xFF}},
    {DK_INTEL_HEX, 0, ":0000000001\n", {DK_CHECKSUM, 0, 1, 0}},
    {DK_S_RECORDS, 0, "S1040000AA50\n" S9_END, {DK_CHECKSUM, 0, 0x50, 0x51}},
    /* the type */
    {DK_INTEL_HEX, 0, ":0400000500000000F7\n" HEX_END, {DK_RECORD_TYPE, 0, 5, 0}},
    {DK_S_RECORDS, 0, "S5030001FB\n" S9_END, {DK_RECORD_TYPE, 0, '5', 0}},
    /* the width */
    {DK_S_RECORDS, 0, "S1040000AA51\nS70500000000FA\n", {DK_ADDRESS_WIDTH, 1, 4, 2}},
    {DK_S_RECORDS, 0, "S30600000000AA4F\nS1040000AA51\n", {DK_ADDRESS_WIDTH, 1, 2, 4}},
    /* the address field */
    {DK_INTEL_HEX, 0, ":00000101FE\n", {DK_ADDRESS_FIELD, 0, 1, 0}},
    {DK_INTEL_HEX, 0, ":020001040001F8\n" HEX_END, {DK_ADDRESS_FIELD, 0, 1, 0}},
    /* past the last address */
    {DK_INTEL_HEX, 0, ":02000004FFFFFC\n:02FFFF001122CD\n" HEX_END, {DK_PAST_LAST, 1, 0x100000000, 0xFFFFFFFF}},
    {DK_S_RECORDS, 0, "S105FFFF1122C9\n" S9_END, {DK_PAST_LAST, 0, 0x10000, 0xFFFF}},
    /* below the load address, with the lowest of the file, behind the line too */
    {DK_INTEL_HEX, 0x20, ":0100100041AE\n:0100080042B5\n" HEX_END, {DK_BELOW_LOAD, 0, 0x10, 8}},
    {DK_S_RECORDS, 1, "S1040000AA51\n" S9_END, {DK_BELOW_LOAD, 0, 0, 0}},
    /* given twice, and by which line */
    {DK_INTEL_HEX, 0, ":0100000041BE\n:020004001122C7\n:020003001122C8\n" HEX_END, {DK_GIVEN_TWICE, 2, 1, 4}},
    {DK_INTEL_HEX, 0, ":02000400AABB95\n:0100050099" "61\n" HEX_END, {DK_GIVEN_TWICE, 1, 0, 5}},
    {DK_S_RECORDS, 0, "S1040000AA51\nS1040000AA51\n" S9_END, {DK_GIVEN_TWICE, 1, 0, 0}},
    /* behind the end, and no end */
    {DK_INTEL_HEX, 0, HEX_END "\n", {DK_BEHIND_END, 1, 0, 0}},
    {DK_S_RECORDS, 0, S9_END "S1zz", {DK_BEHIND_END, 1, 0, 0}},
    {DK_INTEL_HEX, 0, ":0100000041BE\n", {DK_NO_END_RECORD, 1, 0, 0}},
};

int main(void)
{
    size_t count = sizeof tests / sizeof *tests;
    for (size_t i = 0; i < count; i++) {
        const struct test *t = &tests[i];
        const uint8_t *text = (const uint8_t *)t->text;
        struct dk_reason r = dk_record_reason(t->format, text, strlen(t->text), t->load, NULL, 0);
        struct dk_fault f = dk_record_fault(t->format, text, strlen(t->text), t->load, NULL, 0);
        if (memcmp(&r, &t->wanted, sizeof r) != 0 || f.fault != (r.reason != 0) || f.line != r.line) {
            printf("case %zu: %s at line %" PRIu64 ", %" PRIu64 ", %" PRIu64 "\n", i, dk_reason_words(r.reason), r.line, r.first, r.second);
            return 1;
        }
    }
    /* the rooms of the flash station and of the program that turns records around, as their theorems have them */
    if (dk_record_room(16384, 4096) > 131072 || dk_record_room(1048576, 4096) > 3145728 || dk_record_room(UINT64_MAX, 0) != UINT64_MAX) {
        puts("the room of records");
        return 1;
    }
    printf("%zu cases, each with its reason and its numbers\n", count);
    return 0;
}
