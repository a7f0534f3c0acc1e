/* Files in and answers out. Every input is read once; every answer is whole before its first byte is written. */
#include "command.h"
#include <stdlib.h>

const char *called(const char *name) { return strcmp(name, "-") == 0 ? "standard input" : escaped(name); }

const char *titled(const char *name) {
    const char *slash = strrchr(name, '/');
    return slash ? escaped(slash + 1) : called(name);
}

int has_mark(struct bytes file) { return begins(file, "\xef\xbb\xbf"); }

const char *read_named(const char *name, int is_standard, size_t limit, struct bytes *found) {
    int from = is_standard ? 0 : open_input(name);
    if (from < 0) return why();
    if (note_input(from)) return "it is a folder";
    size_t n = 0, room = 0;
    uint8_t *at = NULL;
    for (long k = 1; k > 0 && n <= limit; n += (size_t)k) {
        if (n == room) at = realloc(at, room = room ? 4 * room : 65537);
        if (!at) return "there is no memory left";
        k = read_some(from, at + n, (limit + 1 < room ? limit + 1 : room) - n);
        if (k < 0) return why();
    }
    *found = (struct bytes){at, n};
    return !is_standard && close_file(from) != 0 ? why() : NULL;
}

struct bytes read_input(const char *name, size_t limit) {
    struct bytes found = {NULL, 0};
    const char *fault = read_named(name, strcmp(name, "-") == 0, limit, &found);
    if (fault) fail("%s cannot be read: %s", called(name), fault);
    return found;
}

int answer(struct bytes text, const char *out) {
    if (out) put_in_place(out, text);
    else if (write_all(1, text.at, text.len) != 0 || close_file(1) != 0) fail("the answer could not be written: %s", why());
    return DONE;
}
