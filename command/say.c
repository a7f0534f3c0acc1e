/* Text that grows, parts of a text, and words on standard error. Nothing here asks a locale: none is ever set. */
#include "command.h"
#include <stdarg.h>
#include <stdio.h>
#include <stdlib.h>

char tool[40] = "denkumari";

static NEVER_RETURNS void fail_memory(void) {
    write_all(2, "denkumari: there is no memory left\n", 35);
    exit(FAILED);
}

void *memory(size_t count, size_t size) {
    void *at = calloc(count, size);
    if (!at) fail_memory();
    return at;
}

static void make_room(struct text *t, size_t more) {
    if (t->room - t->len > more) return;
    t->room = 2 * (t->len + more) + 16;
    t->at = realloc(t->at, t->room);
    if (!t->at) fail_memory();
}

void put_bytes(struct text *t, const void *from, size_t n) {
    make_room(t, n);
    if (n > 0) memcpy(t->at + t->len, from, n);
    t->len += n;
    t->at[t->len] = 0;
}

static void put_list(struct text *t, const char *form, va_list words) {
    va_list again;
    va_copy(again, words);
    int n = vsnprintf(NULL, 0, form, again);
    va_end(again);
    if (n < 0) return;
    make_room(t, (size_t)n);
    vsnprintf(t->at + t->len, (size_t)n + 1, form, words);
    t->len += (size_t)n;
}

void put(struct text *t, const char *form, ...) {
    va_list words;
    va_start(words, form);
    put_list(t, form, words);
    va_end(words);
}

/* Nothing has to be remembered: whether a comma is due tells the last character. */
void json(struct text *t, const char *form, ...) {
    va_list words;
    char *in_quotes = memory(strlen(form) + 1, 1);
    for (size_t i = 0; form[i]; i++) in_quotes[i] = form[i] == '\'' ? '"' : form[i];
    if (t->len > 0 && !strchr("{[:", t->at[t->len - 1]) && !strchr("}]", form[0])) put(t, ",");
    va_start(words, form);
    put_list(t, in_quotes, words);
    va_end(words);
    free(in_quotes);
}

const char *shown(const char *form, ...) {
    struct text t = {0};
    va_list words;
    va_start(words, form);
    put_list(&t, form, words);
    va_end(words);
    return t.at;
}

const char *several(long long count, const char *what) { return shown("%lld %s%s", count, what, count == 1 ? "" : "s"); }
const char *plain(long long number) { return shown("%lld", number); }
const char *both(long long number) { return number < 10 ? plain(number) : shown("%lld = 0x%llx", number, (unsigned long long)number); }
const char *or_dash(long long number) { return number == NONE ? "-" : plain(number); }

const char *in_hex(long long address, long long past) {
    const char *at = address < 0 ? plain(address) : shown("0x%llx", (unsigned long long)address);
    return past ? shown("%s+%lld", at, past) : at;
}

struct bytes bytes_of(const struct text *t) { return (struct bytes){(const uint8_t *)t->at, t->len}; }
struct bytes bytes_in(const char *word) { return (struct bytes){(const uint8_t *)word, strlen(word)}; }
int begins(struct bytes text, const char *begin) { return text.len >= strlen(begin) && memcmp(text.at, begin, strlen(begin)) == 0; }

struct bytes cut(struct bytes *rest, char end) {
    const uint8_t *found = rest->len > 0 ? memchr(rest->at, end, rest->len) : NULL;
    struct bytes part = {rest->at, found ? (size_t)(found - rest->at) : rest->len};
    rest->at += part.len + (found != NULL);
    rest->len -= part.len + (found != NULL);
    return part;
}

struct bytes line_at(struct bytes text, uint64_t number) {
    for (; number > 0 && text.len > 0; number--) cut(&text, '\n');
    return cut(&text, '\n');
}

struct bytes last_line(struct bytes text) {
    struct bytes line = text;
    while (text.len > 0) line = cut(&text, '\n');
    return line;
}

long long number_of(struct bytes word, long long most) {
    int is_below = begins(word, "-");
    long long n = 0;
    for (size_t i = (size_t)is_below; i < word.len; i++) {
        if (word.at[i] < '0' || word.at[i] > '9') return NONE;
        n = n > most ? n : 10 * n + (word.at[i] - '0');
    }
    return word.len == 0 || (is_below && n == 0) ? NONE : is_below ? -n : n;
}

/* The bytes of a printable character of UTF-8, 0 where none begins. Control characters, those of C1 too, are not printable. */
static size_t character(const uint8_t *at, size_t n) {
    static const uint32_t least[] = {0, ' ', 0xa0, 0x800, 0x10000};
    size_t size = n == 0 ? 0 : at[0] < 0x80 ? 1 : at[0] < 0xc2 ? 0 : at[0] < 0xe0 ? 2 : at[0] < 0xf0 ? 3 : 4;
    if (size == 0 || n < size) return 0;
    uint32_t code = size == 1 ? at[0] : at[0] & 0x7fu >> size;
    for (size_t k = 1; k < size; k++) {
        if ((at[k] & 0xc0) != 0x80) return 0;
        code = code << 6 | (at[k] & 0x3f);
    }
    int is_bad = code < least[size] || code == 127 || (code >= 0xd800 && code < 0xe000) || code > 0x10ffff || at[0] > 0xf4;
    return is_bad ? 0 : size;
}

const char *escaped(const char *word) {
    struct text t = {0};
    size_t n = strlen(word);
    put(&t, "%s", "");
    for (size_t i = 0, long_; i < n; i += long_ ? long_ : 1) {
        long_ = character((const uint8_t *)word + i, n - i);
        if (long_) put_bytes(&t, word + i, long_);
        else put(&t, "\\x%02x", (unsigned)(unsigned char)word[i]);
    }
    return t.at;
}

void tell_words(const char *words) {
    const char *line = shown("%s: %s\n", tool, words);
    write_all(2, line, strlen(line)); /* where this fails there is nobody left to be told */
}

void fail_words(const char *words) {
    tell_words(words);
    exit(FAILED);
}
