/* Reads a names file: a line for each node with its number, its name and its place in the source, tabs between, numbers ascending. */
#include "command.h"

enum { NODES = 8200, DIGITS_MOST = 99999999 };

/* NULL where it has anything that is not printable. */
static const char *plain_words(struct bytes part) {
    const char *words = shown("%.*s", PRINTED(part));
    return strlen(words) == part.len && strcmp(escaped(words), words) == 0 ? words : NULL;
}

static uint32_t shifted(uint32_t crc, size_t byte) {
    crc ^= (uint32_t)byte << 24;
    for (int k = 0; k < 8; k++) crc = crc << 1 ^ (crc >> 31 ? 0x04c11db7u : 0);
    return crc;
}

/* The sum of a file and its length, as POSIX cksum prints them, `between` between. */
static const char *sum_of(struct bytes file, char between) {
    uint32_t crc = 0;
    for (size_t i = 0; i < file.len; i++) crc = shifted(crc, file.at[i]);
    for (size_t left = file.len; left > 0; left >>= 8) crc = shifted(crc, left & 255);
    return shown("%lu%c%llu", (unsigned long)(uint32_t)~crc, between, (unsigned long long)file.len);
}

/* A line: its node's number. The first may say of which layout file the names are: `form`, the sum and the length, and is NONE; a bad one is below that. */
static long long read_line(struct names *names, struct bytes line, const char **belongs) {
    struct bytes first = cut(&line, '\t'), second = cut(&line, '\t');
    const char *name = plain_words(second), *place = plain_words(line);
    long long node = number_of(first, DIGITS_MOST);
    if (line.at == second.at + second.len || !name || !place) return NONE - 1; /* fewer tabs than two, or more */
    if (belongs && first.len == 4 && begins(first, "form") && number_of(second, DIGITS_MOST) >= 0 && number_of(line, DIGITS_MOST) >= 0) {
        *belongs = shown("%s %s", name, place);
        return NONE;
    }
    if (node >= 0 && node < NODES) names->name[node] = name, names->place[node] = place;
    return node < 0 ? NONE - 1 : node;
}

/* What is wrong with a names file, or NULL; `belongs` is the sum in its first line, NULL where it has none. */
static const char *read_names(struct names *names, struct bytes file, const char **belongs) {
    long long above = NONE;
    if (has_mark(file)) return "it begins with a byte order mark (EF BB BF)";
    for (long number = 1; file.len > 0; number++) {
        struct bytes line = cut(&file, '\n');
        if (line.len > 0 && line.at[line.len - 1] == '\r') line.len--;
        long long node = read_line(names, line, number == 1 ? belongs : NULL);
        if (node < NONE) return shown("line %ld is not a number, a name and a place with tabs between", number);
        if (number > 1 && node <= above) return shown("the node in line %ld is not above that of the line before", number);
        above = node;
    }
    return NULL;
}

/* NAME.names for NAME.form, NULL for other names */
static const char *names_beside(const char *form) {
    size_t n = strlen(form);
    return n < 5 || strcmp(form + n - 5, ".form") != 0 ? NULL : shown("%.*s.names", (int)n - 5, form);
}

/* Names of another layout file, bad ones and ones that cannot be read: told, or, where they were given, the end. */
const struct names *find_names(const struct asked *asked, int i, struct bytes file) {
    const char *given = asked->names[i], *name = given ? given : names_beside(asked->file[i]), *belongs = NULL, *layout = called(asked->file[i]);
    struct bytes text = {NULL, 0};
    if (!name || (!given && !is_regular(name))) return NULL;
    struct names *names = memory(1, sizeof *names);
    const char *fault = read_named(name, 0, NAMES_MAX, &text), *has = sum_of(file, ' ');
    if (!fault) fault = text.len > NAMES_MAX ? "it is too long" : read_names(names, text, &belongs);
    if (!fault && (!belongs || strcmp(belongs, has) == 0)) return names;
    name = escaped(name);
    if (given && fault) fail("%s is not a names file: %s", name, fault);
    if (given) fail("%s does not belong to %s: cksum %s, and %s has %s", name, layout, belongs, layout, has);
    if (!fault) fault = shown("they belong to another layout file (cksum %s, and %s has %s)", belongs, layout, has);
    tell_user("the names of %s are left out: %s", name, fault);
    return NULL;
}

void write_names(const char *form, const struct layout *l, struct bytes file) {
    const char *beside = names_beside(form);
    long long higher = read_layout(file)->nodes - l->nodes;
    struct text t = {0};
    if (!beside || !l->names) return;
    put(&t, "form\t%s\n", sum_of(file, '\t'));
    for (long long i = 0; i < NODES; i++)
        if (has_name(l, i) && i + higher >= 0) put(&t, "%lld\t%s\t%s\n", i + higher, name_of(l, i), place_of(l, i));
    answer(bytes_of(&t), beside);
}

static int is_listed(const struct layout *l, long long node) { return l->names && node >= 0 && node < NODES; }
const char *name_of(const struct layout *l, long long node) { return is_listed(l, node) && l->names->name[node] ? l->names->name[node] : ""; }
const char *place_of(const struct layout *l, long long node) { return is_listed(l, node) && l->names->place[node] ? l->names->place[node] : ""; }
int has_name(const struct layout *l, long long node) { return *name_of(l, node) || *place_of(l, node); }

const char *called_node(const struct layout *l, long long node) {
    const char *name = name_of(l, node), *place = place_of(l, node);
    return has_name(l, node) ? shown("%s%s%s", name, *name && *place ? ", " : "", place) : shown("node %lld", node);
}
