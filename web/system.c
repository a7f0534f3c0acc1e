/* The command in a page: ../command with the page in the place of an operating system (system.c). The page gives the files' bytes by name, and takes what is
 * written. Nothing is proved here; what an answer says of a layout comes from the proved functions, as in the command. */
#include "../command/command.h"
#include <stdlib.h>

/* The page's own (core.js). */
#define OF_PAGE(name) __attribute__((import_module("page"), import_name(name)))
OF_PAGE("open") int page_open(const char *name, size_t n); /* a number, or -1 */
OF_PAGE("read") long page_read(int from, void *room, size_t n);
OF_PAGE("write") void page_write(int to, const void *from, size_t n);
OF_PAGE("exit") void page_exit(int status) __attribute__((noreturn));

int main_of_command(int argc, char **argv); /* main.c's */
int do_pairs(int argc, char **argv); /* pairs.c's */

const char *why(void) { return "there is no such file"; }

void prepare(void) {}

int open_input(const char *name) { return page_open(name, strlen(name)); }

long read_some(int from, void *room, size_t n) { return page_read(from, room, n); }

int close_file(int fd) {
    (void)fd;
    return 0;
}

int note_input(int from) {
    (void)from;
    return 0;
}

int is_regular(const char *name) { return open_input(name) >= 0; }

int write_all(int to, const void *from, size_t n) {
    page_write(to, from, n);
    return 0;
}

void put_in_place(const char *name, struct bytes text) {
    (void)text;
    fail("%s could not be written: a page has no files", escaped(name));
}

void exit(int status) { page_exit(status); }

/* The words of a command line, each ended by a zero; the page puts them there. */
enum { WORDS_LONG = 8192, WORDS_MOST = 40 };
static char words[WORDS_LONG];

__attribute__((export_name("words"))) char *words_room(void) { return words; }

__attribute__((export_name("run"))) int run(int count) {
    char *argv[WORDS_MOST], *at = words;
    if (count >= WORDS_MOST) return FAILED;
    for (int i = 0; i < count; i++) {
        argv[i] = at;
        at += strlen(at) + 1;
    }
    argv[count] = NULL;
    return count > 1 && strcmp(argv[1], "pairs") == 0 ? do_pairs(count, argv) : main_of_command(count, argv);
}
