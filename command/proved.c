/* The proved functions, each with the room that its contract asks for. What an answer says is theirs alone. */
#include "command.h"
#include "texts.h"

enum { BLOCKS = 4096 };

static uint8_t report[163840], map[663552], records[131072], rehexed[3145728], benched[3801600], converted[65537], bytes[1048576], more_bytes[524288],
    scratch[65536];
static uint64_t offsets[BLOCKS], sizes[BLOCKS], more_offsets[BLOCKS], more_sizes[BLOCKS], firsts[65536], counts[65536];

#define LENT(room) {room, sizeof room / sizeof *room}

static slice_u8 lent(struct bytes b) { return (slice_u8){b.at, b.len}; }
static struct bytes first_of(const uint8_t *at, uint64_t n) { return (struct bytes){at, (size_t)n}; }

static prelude__Opt page_of(const struct asked *asked) {
    prelude__Opt page = {.tag = asked->given & PAGE ? prelude__Opt_Some : prelude__Opt_None};
    page.u.Some.f0 = asked->page;
    return page;
}

struct bytes proved_layout(struct bytes file, const struct asked *asked) {
    return first_of(report, layout__put_file(lent(file), asked->fill, page_of(asked), (mut_u8)LENT(report)));
}

struct bytes proved_map(struct bytes file, const struct asked *asked) {
    return first_of(map, print_map__files__write_map(lent(file), asked->fill, page_of(asked), map));
}

struct bytes proved_records(struct bytes file, const struct asked *asked, uint8_t format) {
    print_records__Wanted wanted = {format, asked->load, (asked->given & WHOLE) != 0};
    return first_of(records, prog_records__put_file(wanted, lent(file), asked->fill, page_of(asked), (mut_u8)LENT(records)));
}

struct bytes proved_rehex(const struct source *s, uint8_t format) {
    mut_u8 image = LENT(bytes), out = LENT(rehexed);
    mut_u64 starts = LENT(offsets), lengths = LENT(sizes);
    return first_of(rehexed, print_rehex__put_file(s->kind, format, s->load, lent(s->file), image, starts, lengths, out));
}

struct bytes proved_bench(const struct bytes *files, const struct asked *asked) {
    const uint32_t *range = asked->range;
    return first_of(benched, print_bench__put_bench(!(asked->given & RANGE), range[0], range[1], asked->load, lent(files[0]), lent(files[1]), more_bytes,
                                                    more_offsets, more_sizes, bytes, offsets, sizes, firsts, counts, benched));
}

struct bytes proved_convert(struct bytes file, int form) {
    mut_u8 out = LENT(converted);
    form_convert__Conversion c = form == 1 ? form_convert__to_form1(lent(file), out) : form_convert__to_form2(lent(file), out);
    int is_refused = c.tag != form_convert__Conversion_Converted;
    return first_of(converted, is_refused ? print_text__write_refusal(out, 0, &c.u.Refused.f0) : c.u.Converted.f0);
}

struct built proved_build(struct bytes file, const struct asked *asked) {
    static int64_t addresses[4096];
    uint32_t room = asked->room;
    uint8_t *image = memory(room + 1, 1);
    struct blocks k = {memory(BLOCKS, 8), memory(BLOCKS, 8), 0};
    struct dk_layout r = asked->given & PAGE ? dk_form_paged(file.at, file.len, asked->fill, asked->page, image, room, addresses, 4096, offsets, BLOCKS, sizes,
                                                             BLOCKS)
                                             : dk_form(file.at, file.len, asked->fill, image, room, addresses, 4096, offsets, BLOCKS, sizes, BLOCKS);
    int places = r.refusal == DK_BANKS_OVERLAP || r.refusal == DK_OVERLAP || r.refusal == DK_OFF_PROFILE ? 2 : 1;
    struct dk_count n = dk_blocks(offsets, (size_t)r.spans, sizes, (size_t)r.spans, k.starts, BLOCKS, k.sizes, BLOCKS); /* refused, of no spans */
    if (n.refusal != 0) fail("the layout's blocks do not fit their room");
    k.count = (size_t)n.count;
    return (struct built){{(int)r.refusal, places, {(long long)r.place, (long long)r.second}}, first_of(image, (r.length + 7) / 8), (long long)r.length,
                          (long long)r.k, k};
}

/* What is written or verified of an image: its blocks, or the whole of it as one. */
static struct blocks parts_of(const struct built *b, const struct asked *asked) {
    static uint64_t start, size;
    size = 8 * b->image.len;
    return asked->given & WHOLE ? (struct blocks){&start, &size, b->bits > 0} : b->blocks;
}

struct bytes proved_write(const struct built *b, const struct asked *asked, uint8_t format, struct refusal *r) {
    struct blocks k = parts_of(b, asked);
    size_t room = (size_t)dk_record_room(b->image.len, k.count);
    uint8_t *text = memory(room + 1, 1);
    struct dk_count w = format == 0 ? dk_write_hex(b->image.at, b->image.len, k.starts, k.count, k.sizes, k.count, asked->load, text, room)
                                    : dk_write_srec(b->image.at, b->image.len, k.starts, k.count, k.sizes, k.count, asked->load, format, text, room);
    if (w.refusal == DK_TOO_SHORT) fail("the records do not fit their room");
    r->number = (int)w.refusal;
    return first_of(text, w.count);
}

/* Blocks from an address on as blocks from `shift` bytes behind it on: what is ahead of that is left out. */
static size_t moved_down(uint64_t shift, size_t n) {
    size_t kept = 0;
    for (size_t i = 0; i < n; i++) {
        uint64_t end = offsets[i] + sizes[i], start = offsets[i] < 8 * shift ? 8 * shift : offsets[i];
        if (end <= start) continue;
        offsets[kept] = start - 8 * shift;
        sizes[kept++] = end - start;
    }
    return kept;
}

struct verified proved_verify(const struct built *b, const struct source *dump, const struct asked *asked, struct refusal *r) {
    struct blocks k = parts_of(b, asked);
    size_t image = b->image.len, ahead = asked->load - dump->load, shift = ahead < ROOM_MAX ? ahead : ROOM_MAX, spare = ROOM_MAX / 8;
    uint8_t *all = memory(ROOM_MAX + image + 1, 1), *zeros = memory(spare, 1);
    struct verified v = {memory(image + 1, sizeof *v.first), memory(image + 1, sizeof *v.count), memory(image + 1, 1), 0, 0, {all + shift, image}};
    struct dk_count n = dk_read_records(dump->kind, dump->file.at, dump->file.len, dump->load, all, ROOM_MAX, offsets, BLOCKS, sizes, BLOCKS, zeros, spare);
    size_t given = moved_down(ahead, (size_t)n.count);
    if (n.refusal == 0)
        n = dk_verify(b->image.at, image, k.starts, k.count, k.sizes, k.count, v.found.at, ROOM_MAX - shift, offsets, given, sizes, given, v.first, image,
                      v.count, image, v.kind, image);
    r->number = (int)n.refusal;
    for (size_t i = 0; i < k.count; i++) v.asked += (long long)k.sizes[i] / 8;
    v.runs = (size_t)n.count;
    return v;
}

int proved_reads(const struct source *s, uint32_t load) {
    return dk_read_records(s->kind, s->file.at, s->file.len, load, bytes, s->reach, offsets, BLOCKS, sizes, BLOCKS, scratch, sizeof scratch).refusal == 0;
}

struct dk_reason proved_reason(const struct source *s) { return dk_record_reason(s->kind, s->file.at, s->file.len, s->load, scratch, sizeof scratch); }
uint32_t proved_lowest(struct bytes file, uint8_t kind) { return (uint32_t)dk_record_extent(kind, file.at, file.len, scratch, sizeof scratch).lowest; }
