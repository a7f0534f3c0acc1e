/* The text functions of the programs as C99. Printed by tools/portable from the term that the proofs
 * speak of; not to be edited. What follows this comment has the sum `text`, and what it was printed from has the sum
 * `sources` (sha256; tools/portable.sh says of what).
 *
 * sources: 92c23156d94bdaf9206ce632736175fed8f5bf42a254105f4b963966e0273543
 * text: 85a3fca902f7da22f49deab0b0e644fb9bc84885367c759af0cfaa29e44053a9
 * kit: rattle-kit-5b-plain logic 097e4c862dff5811
 */
#ifndef DENKUMARI_TEXTS_H
#define DENKUMARI_TEXTS_H
#include <stdbool.h>
#include <stddef.h>
#include <stdint.h>

typedef struct { const uint8_t *ptr; size_t len; } slice_u8;
enum {
    prelude__Opt_None = 0,
    prelude__Opt_Some = 1
};
typedef struct {
    uint32_t tag;
    union {
        struct { uint32_t f0; } Some;
    } u;
} prelude__Opt;
typedef struct { uint8_t *ptr; size_t len; } mut_u8;
typedef struct {
    uint8_t format;
    uint32_t load;
    bool whole;
} print_records__Wanted;
typedef struct { uint64_t *ptr; size_t len; } mut_u64;
enum {
    prelude__Refusal_BankCount = 0,
    prelude__Refusal_BankNumber = 1,
    prelude__Refusal_BanksOverlap = 2,
    prelude__Refusal_Malformed = 3,
    prelude__Refusal_PositionPast = 4,
    prelude__Refusal_LabelOffBoundary = 5,
    prelude__Refusal_Unresolved = 6,
    prelude__Refusal_DefaultBank = 7,
    prelude__Refusal_PastBank = 8,
    prelude__Refusal_NoOutput = 9,
    prelude__Refusal_Overlap = 10,
    prelude__Refusal_StoreFull = 11,
    prelude__Refusal_TooShort = 12,
    prelude__Refusal_BadStore = 13,
    prelude__Refusal_BadPart = 14,
    prelude__Refusal_PartlyCovered = 15,
    prelude__Refusal_FillBitDropped = 16,
    prelude__Refusal_OffProfile = 17
};
typedef struct {
    size_t tag;
    union {
        struct { uint64_t f0; } BankNumber;
        struct { uint64_t f0; uint64_t f1; } BanksOverlap;
        struct { uint64_t f0; } Malformed;
        struct { uint64_t f0; } PositionPast;
        struct { uint64_t f0; } LabelOffBoundary;
        struct { uint64_t f0; } DefaultBank;
        struct { uint64_t f0; } PastBank;
        struct { uint64_t f0; } NoOutput;
        struct { uint64_t f0; uint64_t f1; } Overlap;
        struct { uint64_t f0; } StoreFull;
        struct { uint64_t f0; } TooShort;
        struct { uint64_t f0; } BadStore;
        struct { uint64_t f0; uint64_t f1; } OffProfile;
    } u;
} prelude__Refusal;
enum {
    form_convert__Conversion_Converted = 0,
    form_convert__Conversion_Refused = 1
};
typedef struct {
    size_t tag;
    union {
        struct { uint64_t f0; } Converted;
        struct { prelude__Refusal f0; } Refused;
    } u;
} form_convert__Conversion;

/* layout::put_file:
 * The report of a file, put at the front of `text`: how many bytes it is. There is room, so that the text is never
 * too short.
 */
uint64_t layout__put_file(slice_u8 file, uint8_t fill, prelude__Opt page, mut_u8 text);

/* print_map::files::write_map:
 * The map's text of a file of either form, a fill's choice and a page size, if there is one, at the front of `out`,
 * which has room for any.
 */
uint64_t print_map__files__write_map(slice_u8 file, uint8_t fill, prelude__Opt page, uint8_t *restrict out);

/* prog_records::put_file: The text of a file, put at the front of `out`: how many bytes it is. */
uint64_t prog_records__put_file(print_records__Wanted wanted, slice_u8 file, uint8_t fill, prelude__Opt page,
        mut_u8 out);

/* print_rehex::put_file: The same, in rooms that every text fits into; nothing in other ones. */
uint64_t print_rehex__put_file(uint8_t kind, uint8_t format, uint32_t load, slice_u8 source, mut_u8 bytes,
        mut_u64 offsets, mut_u64 sizes, mut_u8 out);

/* print_bench::put_bench:
 * The whole text, at the front of `out`: how many bytes it is. All runs are asked for, or else a range by its
 * address and its count of bytes. The arrays go by reference, with their lengths, so that there is always room, and
 * are not looked at one by one.
 */
uint64_t print_bench__put_bench(bool all, uint32_t address, uint32_t count, uint32_t load, slice_u8 released_file,
        slice_u8 overlay_file, uint8_t *restrict released, uint64_t *restrict released_offsets,
        uint64_t *restrict released_sizes, uint8_t *restrict overlay, uint64_t *restrict offsets,
        uint64_t *restrict sizes, uint64_t *restrict firsts, uint64_t *restrict counts, uint8_t *restrict out);

/* form_convert::to_form1: Form 2 to form 1. A refused call changes nothing that is lent. */
form_convert__Conversion form_convert__to_form1(slice_u8 file, mut_u8 out);

/* form_convert::to_form2: Form 1 to form 2. A refused call changes nothing that is lent. */
form_convert__Conversion form_convert__to_form2(slice_u8 file, mut_u8 out);

/* print_text::write_refusal:
 * The same where it is known to fit: a refusal's line has at most 71 bytes, since its number has two digits at most
 * and each of a place twenty.
 */
uint64_t print_text__write_refusal(mut_u8 out, uint64_t at, const prelude__Refusal *restrict why);

/* prog_args::number:
 * The number that a text spells in decimal digits, or in hexadecimal ones behind 0x, up to 4,294,967,295; none for
 * any other text, the empty one too.
 */
prelude__Opt prog_args__number(slice_u8 text);

#endif
