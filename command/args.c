/* The command line: options and files in any order, `--option=value` as `--option value`, and only files behind `--`. */
#include "command.h"
#include "texts.h"

const struct option options[OPTIONS] = {
#define OPTION(what, name, values, words) {name, values, words},
#include "help.def"
};

static uint32_t number(const char *name, const char *word) {
    prelude__Opt n = prog_args__number((slice_u8){(const uint8_t *)word, strlen(word)});
    if (n.tag != prelude__Opt_Some) fail("%s takes a number up to 4294967295, decimal or in hex after 0x, not '%s'", name, escaped(word));
    return n.u.Some.f0;
}

/* Whether it is the second of the two words that an option takes, a bar between them. */
static int is_second(const struct option *o, const char *word) {
    struct bytes second = bytes_in(o->values), first = cut(&second, '|');
    int is_first = strlen(word) == first.len && begins(first, word), is_other = strcmp(word, (const char *)second.at) == 0;
    if (!is_first && !is_other) fail("%s takes %.*s or %.*s, not '%s'", o->name, PRINTED(first), PRINTED(second), escaped(word));
    return is_other;
}

static const char *file_name(const char *word) {
    if (!*word) fail("the name of a file is empty");
    return word;
}

static void take(struct asked *asked, int at, const char *value, const char *next) {
    const struct option *o = &options[at];
    asked->given |= 1u << at;
    int is_other = strchr(o->values, '|') ? is_second(o, value) : 0;
    switch (1 << at) {
    case FILL: asked->fill = (uint8_t)is_other; break;
    case PAGE: asked->page = number(o->name, value); break;
    case ROOM:
        asked->room = number(o->name, value);
        if (asked->room > ROOM_MAX) fail("--room takes at most %u bytes", ROOM_MAX);
        break;
    case LOAD:
    case LOWEST: asked->load = number(o->name, value); break;
    case WIDTH: asked->width = is_other ? 4 : 2; break;
    case TO_FORM:
    case INTO_FORM:
    case TO_KIND: asked->to = value; break;
    case OUTPUT: asked->out = file_name(value); break;
    case BOTH_NAMES: asked->names[1] = file_name(next); /* falls through */
    case NAMES: asked->names[0] = file_name(value); break;
    case RANGE: asked->range[0] = number(o->name, value), asked->range[1] = number(o->name, next); break;
    default: break;
    }
}

static int find_option(const char *word, size_t n, unsigned takes) {
    int i = 0;
    while (i < OPTIONS && !(strlen(options[i].name) == n && memcmp(options[i].name, word, n) == 0 && (takes >> i & 1))) i++;
    if (i == OPTIONS) fail("there is no option %s (--help lists them)", escaped(word));
    return i;
}

/* An option and its values: the place of the last word that it takes. */
static int take_option(struct asked *asked, unsigned takes, int argc, char **argv, int i) {
    char *word = argv[i], *equals = strncmp(word, "--", 2) == 0 ? strchr(word, '=') : NULL;
    int at = find_option(word, equals ? (size_t)(equals - word) : strlen(word), takes), have = 0;
    const struct option *o = &options[at];
    int wanted = !*o->values ? 0 : strchr(o->values, ' ') ? 2 : 1;
    const char *value[2] = {"", ""};
    if (equals && wanted == 0) fail("%s takes no value", o->name);
    if (equals) value[have++] = equals + 1;
    for (; have < wanted; have++) {
        if (++i >= argc) fail("%s takes %s: %s %s", o->name, wanted == 1 ? "a value" : "two values", o->name, o->values);
        value[have] = argv[i];
    }
    take(asked, at, value[0], value[1]);
    return i;
}

struct asked read_words(const struct command *command, int argc, char **argv) {
    struct asked asked = {.room = ROOM_USUAL};
    int only_files = 0;
    for (int i = 2; i < argc; i++) {
        char *word = argv[i];
        if (!only_files && strcmp(word, "--") == 0) only_files = 1;
        else if (!only_files && word[0] == '-' && word[1] != 0) i = take_option(&asked, command->takes, argc, argv, i);
        else if (asked.files == command->most) fail("one word too many: %s (--help shows the usage)", escaped(word));
        else asked.file[asked.files++] = file_name(word);
    }
    if (asked.files < command->least) fail("a file is missing (--help shows the usage)");
    if (asked.files == 0) asked.file[asked.files++] = "-";
    return asked;
}
