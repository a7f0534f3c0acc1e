/* The command line. help.def has the commands and their options. */
#ifndef DENKUMARI_ARGS_H
#define DENKUMARI_ARGS_H
#include <stdint.h>

enum {
#define OPTION(what, name, values, words) what##_AT,
#include "help.def"
    OPTIONS
};
/* What a command takes, one bit each. */
enum {
#define OPTION(what, name, values, words) what = 1 << what##_AT,
#include "help.def"
    NO_OPTION = 0
};
struct option {
    const char *name, *values, *words;
};
extern const struct option options[OPTIONS];

struct asked {
    unsigned given;
    uint8_t fill, width; /* a fill of 0 is inherited, of 1 full */
    uint32_t page, room, load, range[2];
    const char *to, *out, *names[2], *file[2];
    int files;
};
struct command {
    const char *name, *files;
    int least, most; /* files, or a file and a refusal */
    unsigned takes;
    int (*run)(struct asked *);
    const char *line, *text;
};

struct asked read_words(const struct command *command, int argc, char **argv);
#endif
