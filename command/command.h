/* What the files of the command share, each part below the name of the file that has it. */
#ifndef DENKUMARI_COMMAND_H
#define DENKUMARI_COMMAND_H
#include "args.h"
#include "denkumari.h"
#include <stddef.h>
#include <string.h>

#if defined(__GNUC__)
#define LIKE_PRINTF(form, first) __attribute__((format(printf, form, first)))
#define NEVER_RETURNS __attribute__((noreturn))
#else
#define LIKE_PRINTF(form, first)
#define NEVER_RETURNS
#endif

#define COMMAND(name, files, least, most, takes, line, text) int do_##name(struct asked *asked);
#include "help.def"

enum { DONE, REFUSED, FAILED }; /* the statuses */
enum { NONE = -1 }; /* a size, offset, alignment or place in the output that there is not */

/* say.c: text that grows, parts of a text, and words on standard error */
struct bytes {
    const uint8_t *at;
    size_t len;
};
struct text {
    char *at;
    size_t len, room;
};
#define PRINTED(b) (int)(b).len, (const char *)(b).at /* for %.*s */
extern char tool[]; /* the command's name, ahead of every line that it says */
void *memory(size_t count, size_t size); /* of zeros; where there is none left the command ends */
void put(struct text *t, const char *form, ...) LIKE_PRINTF(2, 3);
void json(struct text *t, const char *form, ...) LIKE_PRINTF(2, 3); /* ' stands for "; behind a comma where something stands before it */
void put_bytes(struct text *t, const void *from, size_t n);
struct bytes bytes_of(const struct text *t);
struct bytes bytes_in(const char *word);
int begins(struct bytes text, const char *begin);
struct bytes cut(struct bytes *rest, char end); /* what stands ahead of the next `end`, or all; the rest begins behind that */
struct bytes line_at(struct bytes text, uint64_t number); /* from 0 on; empty where there are not so many */
struct bytes last_line(struct bytes text);
long long number_of(struct bytes word, long long most); /* NONE where it is none; digits behind a number above `most` are not read */
/* Words that live as long as the command. */
const char *shown(const char *form, ...) LIKE_PRINTF(1, 2);
const char *escaped(const char *word); /* a file's name may hold any bytes */
const char *several(long long count, const char *what);
const char *plain(long long number);
const char *both(long long number); /* in decimal, and from 10 on in hex */
const char *or_dash(long long number); /* - for NONE */
const char *in_hex(long long address, long long past); /* "0x820", or "0x820+3" */
/* A line on standard error, as printf has it; the second ends the command with it. */
#define tell_user(...) tell_words(shown(__VA_ARGS__))
#define fail(...) fail_words(shown(__VA_ARGS__))
void tell_words(const char *words);
NEVER_RETURNS void fail_words(const char *words);

/* system.c: what the operating systems have in different ways */
void prepare(void); /* first of all */
int open_input(const char *name); /* a descriptor, or -1 */
long read_some(int from, void *room, size_t n); /* 0 at the end, -1 for a fault */
int close_file(int fd);
int note_input(int from); /* so that it is not written over; whether it is a folder */
int is_regular(const char *name); /* whether there is such a file, no folder and no pipe */
int write_all(int to, const void *from, size_t n); /* 0, or -1 for a fault */
void put_in_place(const char *name, struct bytes text); /* whole or not at all; never over an input */
const char *why(void); /* the last fault in words */

/* files.c: files in and answers out. The longest input of each kind; the proved functions refuse one that is a byte longer. */
#define LAYOUT_MAX 65536u
#define RECORDS_MAX 3276800u
#define BENCH_MAX 1048576u
#define DUMP_MAX 50331648u
#define NAMES_MAX 4194304u
struct bytes read_input(const char *name, size_t limit); /* at most `limit` bytes and one more, of - standard input; fails by itself */
const char *read_named(const char *name, int is_standard, size_t limit, struct bytes *found); /* NULL, or what went wrong */
const char *called(const char *name);
const char *titled(const char *name); /* without its folders */
int has_mark(struct bytes file); /* whether it begins with a byte order mark, EF BB BF */
int answer(struct bytes text, const char *out); /* to standard output, or whole into a file of its own: DONE */

/* proved.c: the proved functions, each with the room that its contract asks for */
#define ROOM_USUAL 16384u /* bytes of an image: what layout lends */
#define ROOM_MAX 16777216u
struct refusal { /* 0 where there is none */
    int number, places;
    long long place[2];
};
struct blocks {
    uint64_t *starts, *sizes;
    size_t count;
};
struct built { /* a layout in as much room as was asked for */
    struct refusal refusal;
    struct bytes image;
    long long bits, passes; /* K of `passes K` */
    struct blocks blocks;
};
struct source { /* a file of records */
    struct bytes file;
    uint8_t kind; /* 0 Intel HEX, 1 S-records */
    uint32_t load;
    size_t limit, reach; /* the longest that it may be, and how far its bytes may lie from the load address */
};
struct verified {
    uint64_t *first, *count; /* runs of bytes that are not given or differ (enum dk_unlike), from the image's first on */
    uint8_t *kind;
    size_t runs;
    long long asked; /* how many bytes were held against the image's */
    struct bytes found; /* what was read back, from the load address on */
};
struct bytes proved_layout(struct bytes file, const struct asked *asked);
struct bytes proved_map(struct bytes file, const struct asked *asked);
struct bytes proved_records(struct bytes file, const struct asked *asked, uint8_t format);
struct bytes proved_rehex(const struct source *s, uint8_t format);
struct bytes proved_bench(const struct bytes *files, const struct asked *asked);
struct bytes proved_convert(struct bytes file, int form); /* the file, or the refusal's line, with which no file begins */
struct built proved_build(struct bytes file, const struct asked *asked);
struct bytes proved_write(const struct built *b, const struct asked *asked, uint8_t format, struct refusal *r); /* records; r->number is 0, 4 or 16 */
struct verified proved_verify(const struct built *b, const struct source *dump, const struct asked *asked, struct refusal *r);
int proved_reads(const struct source *s, uint32_t load); /* whether it would be read with that load address */
struct dk_reason proved_reason(const struct source *s);
uint32_t proved_lowest(struct bytes file, uint8_t kind); /* the lowest address that a file gives a byte to; 0 where it gives none or is bad */

/* layout.c: a layout as words and tables speak of it: what its file has, and what the proved functions said of it */
enum { NOTHING, SWITCH, LABEL, CONSTANT, INSTRUCTION, DATA, OPEN, RESERVE, ALIGN, ADDR, ASSERT };
struct bank {
    long long unit, start, size, offset, align, padding, units;
    int fill, bit;
};
struct node {
    int kind;
    long long operand, bank, position, address, output, bits; /* from `bank` on as the map has it */
};
struct layout {
    struct bytes file;
    const struct names *names;
    const char *why; /* what is wrong with the file, NULL where nothing is */
    int form, limit, passes, has_map, is_full; /* passes that were run */
    long long banks, nodes, rows, values, shown, fault, room;
    struct built built; /* its refusal is the map's where nothing was built */
    struct bank bank[3000];
    struct node node[8200];
    uint32_t number[13200];
    uint8_t state[13200];
};
extern const char *const kind_words[11];
struct layout *read_layout(struct bytes file);
struct layout *open_layout(const struct asked *asked, int i, struct bytes file); /* with its names and what the proved map says of it */
struct refusal refusal_of(struct bytes text); /* what its first line says; number 0 where that is no refusal */
const char *spelled(const struct refusal *r); /* the refusal's line */
long long number_at(const struct layout *l, long long node, long long row);
long long row_of(const struct layout *l, long long pass); /* the row that a pass reads */
long long distance(const struct bank *b, long long position, long long alignment);
int is_written(const struct layout *l, long long node);
int is_placed(const struct layout *l, long long node);
int is_symbol(const struct node *n);
int is_filled(const struct bank *b); /* inside the image */
int is_beyond(const struct bank *b); /* a start that is refused */

/* names.c: what nodes are called and where they stand in the source */
struct names {
    const char *name[8200], *place[8200]; /* by node; NULL where there is none */
};
const struct names *find_names(const struct asked *asked, int i, struct bytes file); /* those of `file`; NULL where there are none */
void write_names(const char *form, const struct layout *l, struct bytes file); /* beside a converted file, every node as much higher as it has more nodes */
int has_name(const struct layout *l, long long node);
const char *name_of(const struct layout *l, long long node); /* empty where there is none */
const char *place_of(const struct layout *l, long long node);
const char *called_node(const struct layout *l, long long node); /* "clamp_force, tables.asm:12", or "node 7" */

/* values.c: the words of banks, or the parts of them that an item holds, and what images hold there */
struct word {
    long long address, past, output, bits; /* how many bits past its address, its place in the output and its bits */
};
int same_bits(struct bytes a, long long from, struct bytes b, long long other, long long bits);
struct word word_at(const struct layout *l, long long node, long long done); /* the one that begins so many bits behind the item's first */
const char *value(struct bytes image, long long from, long long bits); /* in hex, as one number */

/* words.c: refusals in words, with nodes by their names; refusals.def has the words themselves */
enum cause {
#define WORDS(cause, number, words, remedy) cause,
#include "refusals.def"
#undef WORDS
    CAUSES
};
struct said { /* what fills the places of a cause's words */
    const struct layout *layout;
    long long node, bank, second, n[3];
    const char *note;
};
const char *words_of(enum cause cause, const struct said *s); /* and what to do about it */
const char *words_with(enum cause cause, const struct said *s, const char *between); /* what stands between the two */
const char *refusal_words(const struct layout *l, const struct refusal *r, int to); /* of a conversion into form `to`, or with 0 of a layout */

/* records.c: files of records, and why one is not read */
uint8_t kind_of(struct bytes file); /* by its first character */
const char *ragged(const struct layout *l); /* the first block that is not of whole bytes, and its first item */
const char *unread(const struct source *s, int number, int has_line); /* a refusal of it in words; with a line where the file is bad there */

/* json.c: what answers as JSON have in common, and how a command ends that has one */
const char *quoted(const char *word); /* of printable UTF-8; null for NULL */
const char *or_null(long long number); /* null for NONE */
void json_node(struct text *t, const struct layout *l, long long node); /* an object without its end: the keys of a node that has a place */
void json_blocks(struct text *t, const struct blocks *b);
void json_end(struct text *t, const struct refusal *r, const char *words); /* whether it is refused, and the object's end */
int refuse(const struct refusal *r, const char *words); /* REFUSED, and on standard error why */
/* An answer that is text or, with --json, an object: the object alone is printed of what is refused, and never into a file of its own. */
int finish(const struct asked *asked, const struct text *text, struct text *object, const struct refusal *r, const char *words, int differs);

/* map.c: the map as tables and as JSON */
void put_map(struct text *t, struct text *object, const char *title, const struct layout *l);

/* compare.c, pair.c: the nodes of two layouts, and which of them are the same */
enum { MOVED, GROWN, SHRUNK, CONTENTS, KIND, NEW, GONE, DIFFERENCES };
struct one { /* a node that is compared, and the one that it is on the other side */
    const struct layout *layout;
    const struct node *node;
    long long number;
    uint64_t alike; /* of its kind, size and contents */
    const char *name, *behind; /* its own, and that of the named node before it; empty where there is none */
    struct one *other;
    int is_common; /* too many are alike for a run of them to say anything */
};
struct side {
    struct layout *layout;
    struct one *ones;
    size_t count;
};
struct side read_side(const struct asked *asked, int i); /* fails where its layout is refused */
void pair_all(struct side *a, struct side *b);
unsigned changes(const struct one *x, const struct one *y); /* a bit each; one of the two may be NULL */
const char *changes_words(unsigned found); /* with commas between */
#endif
