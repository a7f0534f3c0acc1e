/* Two files of records on the bench: where an overlay differs from what is released, and of which of them a range is. */
#include "command.h"

static unsigned long long number_in(struct bytes word) { return (unsigned long long)number_of(word, UINT32_MAX); }

/* What the proved text has, without the count of runs at its end, with addresses in hex too, and as JSON. */
static void put_runs(struct text *t, struct text *object, struct bytes text) {
    const char *alone = "null";
    json(object, "'runs':[");
    while (text.len > 0) {
        struct bytes line = cut(&text, '\n'), kind = cut(&line, ' '), address = cut(&line, ' ');
        int is_alone = begins(kind, "alone");
        if (begins(kind, "runs")) continue;
        put(t, "%.*s %.*s 0x%08llx%s%.*s\n", PRINTED(kind), PRINTED(address), number_in(address), is_alone ? "" : " ", PRINTED(line));
        if (is_alone) alone = shown("%.*s", PRINTED(address));
        if (is_alone) continue;
        struct bytes count = cut(&line, ' '), released = cut(&line, ' ');
        json(object, "{'address':%.*s,'count':%.*s,'released':'%.*s','overlay':'%.*s'}", PRINTED(address), PRINTED(count), PRINTED(released), PRINTED(line));
    }
    json(object, "],'alone':%s", alone);
}

/* Which of the two files gives a range, and its bytes: the text as it is, and as JSON. */
static void put_range(struct text *t, struct text *object, const struct asked *asked, struct bytes text) {
    put_bytes(t, text.at, text.len);
    struct bytes line = cut(&text, '\n'), from = cut(&line, ' ');
    json(object, "'range':{'address':%lu,'count':%lu,'from':'%.*s','bytes':'%.*s'}", (unsigned long)asked->range[0], (unsigned long)asked->range[1],
         PRINTED(from), PRINTED(line));
}

/* A refusal's second line names the file that it is of, behind a blank the address at which a range is not given; its third the line at fault. */
static const char *refused_words(const struct asked *asked, struct bytes text, const struct refusal *r, const struct bytes *files) {
    struct bytes address = line_at(text, 1), named = cut(&address, ' ');
    int at = !begins(named, "released"), is_named = !at || begins(named, "overlay");
    struct source f = {files[at], 0, asked->load, BENCH_MAX, 524288};
    struct said s = {0};
    const char *name = called(asked->file[at]);
    if (is_named && (r->number == 4 || r->number == 14)) return shown("%s: %s", name, unread(&f, r->number, line_at(text, 2).len > 0));
    if (is_named && address.len > 0)
        s.note = shown("%s gives no byte at %.*s (0x%08llx)", name, PRINTED(address), number_in(address));
    return words_of(r->number == 14 ? BENCH_RUNS : !s.note ? BENCH_EMPTY : r->number == 16 ? BENCH_OUTSIDE : BENCH_PARTLY, &s);
}

/* Unless it is said, the load address is the lowest that the two files and the range have: addresses are compared and told as they are, whatever it is. */
static uint32_t load_of(const struct asked *asked, const struct bytes *files) {
    uint32_t released = proved_lowest(files[0], 0), overlay = proved_lowest(files[1], 0), load = released < overlay ? released : overlay;
    if (asked->given & LOWEST) return asked->load;
    return (asked->given & RANGE) && asked->range[0] < load ? asked->range[0] : load;
}

int do_bench(struct asked *asked) {
    int has_range = (asked->given & RANGE) != 0;
    if (has_range && (asked->given & CHECK)) fail("--check is for whole files, and --range asks for a part");
    struct bytes files[2] = {read_input(asked->file[0], BENCH_MAX), read_input(asked->file[1], BENCH_MAX)};
    asked->load = load_of(asked, files);
    struct bytes text = proved_bench(files, asked);
    struct refusal r = refusal_of(text);
    struct text said = {0}, object = {0};
    json(&object, "{'released':%s,'overlay':%s,'load':%lu", quoted(called(asked->file[0])), quoted(called(asked->file[1])), (unsigned long)asked->load);
    if (!r.number && has_range) put_range(&said, &object, asked, text);
    else if (!r.number) put_runs(&said, &object, text);
    return finish(asked, &said, &object, &r, r.number ? refused_words(asked, text, &r, files) : NULL, said.len > 0 && (asked->given & CHECK));
}
