/* What is asked of a layout file: its layout, its map, a refusal of it in words, its other form. */
#include "command.h"

/* What a layout file is answered with: of a refused one too, and then never into a file of its own. */
static int print_layout(const struct asked *asked, struct bytes text, const char *refused) {
    if (!refused) return answer(text, asked->out);
    answer(text, NULL);
    tell_user("%s", refused);
    return REFUSED;
}

int do_layout(struct asked *asked) {
    struct bytes file = read_input(asked->file[0], LAYOUT_MAX), text = proved_layout(file, asked);
    struct refusal r = refusal_of(last_line(text));
    struct layout *l = asked->names[0] || r.number ? open_layout(asked, 0, file) : NULL;
    const char *refused = r.number ? refusal_words(l, &r, 0) : NULL;
    struct text object = {0};
    if (!(asked->given & JSON)) return print_layout(asked, text, refused);
    json(&object, "{'file':%s", quoted(called(asked->file[0])));
    if (!refused) {
        struct built b = proved_build(file, asked);
        json(&object, "'passes':%lld", b.passes);
        json_blocks(&object, &b.blocks);
        json(&object, "'image':'%s'", value(b.image, 0, (b.bits + 3) / 4 * 4));
    }
    json_end(&object, &r, refused);
    return print_layout(asked, bytes_of(&object), refused);
}

int do_map(struct asked *asked) {
    int is_lines = (asked->given & LINES) != 0, is_json = (asked->given & JSON) != 0;
    if (is_lines && is_json) fail("--lines and --json are two ways to print a map: take one");
    struct bytes file = read_input(asked->file[0], LAYOUT_MAX);
    struct layout *l = open_layout(asked, 0, file);
    const struct refusal *r = &l->built.refusal;
    struct text t = {0}, object = {0};
    if (!r->number) {
        l->built = proved_build(file, asked); /* 14 is the layout's alone to say, since the map lends no image */
        if (r->number != 0 && r->number != 14) fail("the map and the layout do not agree");
    }
    const char *refused = r->number ? refusal_words(l, r, 0) : NULL;
    json(&object, "{'file':%s", quoted(called(asked->file[0])));
    if (!is_lines && l->has_map) put_map(&t, &object, titled(asked->file[0]), l);
    json_end(&object, r, refused);
    return print_layout(asked, is_lines ? proved_map(file, asked) : bytes_of(is_json ? &object : &t), refused);
}

/* The layout, or its conversion, has to be refused so. 14 of other rooms than the image's, 15, 16 and 17 are of calls that no layout file shows: they are said
 * in general. */
int do_words(struct asked *asked) {
    struct refusal r = refusal_of(bytes_in(asked->file[1]));
    if (r.number < 1 || r.number > 19 || r.places < 1 || strcmp(spelled(&r), asked->file[1]) != 0)
        fail("usage: denkumari words FILE 'refused NUMBER PLACE ..'");
    struct bytes file = read_input(asked->file[0], LAYOUT_MAX);
    struct layout *l = open_layout(asked, 0, file);
    int to = asked->to ? asked->to[0] - '0' : 0, is_general = !to && ((r.number == 14 && r.place[0] != 0) || (r.number >= 15 && r.number <= 17));
    struct refusal found = refusal_of(to ? proved_convert(file, to) : last_line(proved_layout(file, asked)));
    if (!is_general && (found.number != r.number || memcmp(found.place, r.place, sizeof r.place) != 0))
        fail("%s does not have this refusal: it is %s", called(asked->file[0]),
             found.number ? spelled(&found) : "accepted; --fill, --page and --to are those of the refused call");
    return answer(bytes_in(shown("%s\n", refusal_words(l, &r, to))), NULL);
}

int do_convert(struct asked *asked) {
    if (!asked->to) fail("--to 1 or --to 2 is missing");
    struct bytes file = read_input(asked->file[0], LAYOUT_MAX), text = proved_convert(file, asked->to[0] - '0');
    struct refusal r = refusal_of(text);
    struct layout *l = open_layout(asked, 0, file);
    if (r.number) return refuse(&r, refusal_words(l, &r, asked->to[0] - '0'));
    answer(text, asked->out);
    if (asked->out) write_names(asked->out, l, text);
    return DONE;
}
