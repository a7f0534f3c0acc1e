/* denkumari: the proved functions as one command. Everything in this folder is written by hand and not proved: the command line, files in, answers out,
 * words. */
#include "command.h"
#include <stdio.h>

#ifndef DENKUMARI_KIT
#define DENKUMARI_KIT "not recorded"
#endif
#ifndef DENKUMARI_COMMIT
#define DENKUMARI_COMMIT "not recorded"
#endif
#ifndef DENKUMARI_SOURCES
#define DENKUMARI_SOURCES "not recorded"
#endif

static const struct command commands[] = {
#define COMMAND(name, files, least, most, takes, line, text) {#name, files, least, most, takes, do_##name, line, text},
#include "help.def"
};

int do_form(struct asked *asked) {
    tell_user("%s is shown by a script, which this installation does not have", escaped(asked->file[0]));
    return FAILED;
}

static int print_version(void) {
    return answer(bytes_in("denkumari " DENKUMARI_VERSION "\nkit " DENKUMARI_KIT "\ncommit " DENKUMARI_COMMIT "\nsources " DENKUMARI_SOURCES "\n"), NULL);
}

static int print_help(void) {
    struct text t = {0};
    put(&t, "denkumari turns a bank table and a list of nodes into the image that is flashed. Each command has its own --help (denkumari layout --help):\n\n");
    for (size_t i = 0; i < sizeof commands / sizeof *commands; i++) put(&t, "    %-8s %-16s  %s\n", commands[i].name, commands[i].files, commands[i].line);
    put(&t, "    %-25s  the version, the kit that the code was proved with, the commit, and the sums of the proved sources\n\n", "--version");
    put(&t, "FILE may be -, standard input; --option=value is --option value; behind -- every word is a file. No environment variable and no locale is asked.\n"
            "What is printed comes from the proved functions: portable/ has them as C, printed from the very term that the proofs speak of, and its head\n"
            "names the sources and the kit. The command around them (command/) is written by hand: it reads, calls, and writes whole or not at all.\n"
            "Status 0: done; 1: refused, or a difference (compare, verify, bench --check), with the reason in words on standard error; 2: anything else.\n");
    return answer(bytes_of(&t), NULL);
}

static int print_usage(const struct command *c) {
    struct text t = {0}, words = {0};
    put(&t, "denkumari %s %s:\n    denkumari %s", c->name, c->line, c->name);
    for (int i = 0; i < OPTIONS; i++) {
        const struct option *o = &options[i];
        const char *blank = *o->values ? " " : "", *open = 1 << i == INTO_FORM ? "" : "[", *close = *open ? "]" : "";
        if (!(c->takes >> i & 1)) continue;
        put(&t, " %s%s%s%s%s", open, o->name, blank, o->values, close);
        put(&words, "  %s%s%-*s  %s\n", o->name, blank, 22 - (int)(strlen(o->name) + strlen(blank)), o->values, o->words);
    }
    put(&t, " %s\n%s%s", c->files, words.at, c->text);
    return answer(bytes_of(&t), NULL);
}

int main(int argc, char **argv) {
    const struct command *command = NULL;
    prepare();
    if (argc < 2) fail("which command? (--help lists them)");
    if (strcmp(argv[1], "--help") == 0) return print_help();
    if (strcmp(argv[1], "--version") == 0 && argc > 2) fail("--version takes nothing behind it");
    if (strcmp(argv[1], "--version") == 0) return print_version();
    for (size_t i = 0; i < sizeof commands / sizeof *commands; i++)
        if (strcmp(argv[1], commands[i].name) == 0) command = &commands[i];
    if (!command) fail("there is no %s %s (--help lists them)", argv[1][0] == '-' ? "option" : "command", escaped(argv[1]));
    snprintf(tool, 40, "denkumari %s", command->name);
    for (int i = 2; i < argc && strcmp(argv[i], "--") != 0; i++)
        if (strcmp(argv[i], "--help") == 0) return print_usage(command);
    struct asked asked = read_words(command, argc, argv);
    if (asked.given & (SVG | HTML)) fail("a script does that, which this installation does not have");
    if (asked.files == 2 && (command->takes & OUTPUT) && strcmp(asked.file[0], "-") == 0 && strcmp(asked.file[1], "-") == 0)
        fail("standard input can be read once, and both files are -");
    return command->run(&asked);
}
