/* Prints docs/denkumari.1 or, with the word bash, command/denkumari.bash, both from command/help.def:
 *
 *     cc -std=c99 -Icommand -o pages command/pages/pages.c && ./pages >docs/denkumari.1 && ./pages bash >command/denkumari.bash
 *
 * It is no part of the command. command/test.sh holds the two files to what it prints. */
#include "../args.h"
#include <stdio.h>
#include <string.h>

static const struct option table[OPTIONS] = {
#define OPTION(what, name, values, words) {name, values, words},
#include "help.def"
};
static const struct command commands[] = {
#define COMMAND(name, files, least, most, takes, line, text) {#name, files, least, most, takes, NULL, line, text},
#include "help.def"
};
enum { COMMANDS = sizeof commands / sizeof *commands };

/* A character of a text in roff. */
static void put_character(char c) {
    if (c == '-') fputs("\\-", stdout);
    else if (c == '\\') fputs("\\e", stdout);
    else putchar(c);
}

static void put_words(const char *text) {
    while (*text) put_character(*text++);
}

/* Lines that begin with a blank stay as they are. */
static void put_text(const char *text) {
    for (int is_table = 0, is_now; *text; is_table = is_now) {
        is_now = *text == ' ';
        if (is_now != is_table) puts(is_now ? ".nf" : ".fi");
        if (*text == '.' || *text == '\'') fputs("\\&", stdout);
        for (; *text != '\n'; text++) put_character(*text);
        if (*text++ == '\n') putchar('\n');
        if (*text == '\n') puts(".sp"), text++;
    }
}

static void put_usage(const struct command *c) {
    printf(".TP\n.B %s", c->name);
    for (int i = 0; i < OPTIONS; i++) {
        int is_needed = 1 << i == INTO_FORM;
        if (!(c->takes >> i & 1)) continue;
        fputs(is_needed ? " " : " [", stdout);
        put_words(table[i].name);
        printf("%s%s%s", *table[i].values ? " " : "", table[i].values, is_needed ? "" : "]");
    }
    printf(" %s\n", c->files);
    put_words(c->line);
    puts(".");
    put_text(c->text);
}

static void put_options(void) {
    puts(".SH OPTIONS");
    for (int i = 0; i < OPTIONS; i++) {
        printf(".TP\n.B ");
        put_words(table[i].name);
        printf("%s%s\n", *table[i].values ? " " : "", table[i].values);
        put_words(table[i].words);
        const char *between = " (";
        for (size_t k = 0; k < COMMANDS; k++) {
            if (!(commands[k].takes >> i & 1)) continue;
            printf("%s%s", between, commands[k].name);
            between = ", ";
        }
        puts(")");
    }
}

static void put_page(void) {
    fputs(
#include "head.def"
        , stdout);
    for (size_t i = 0; i < COMMANDS; i++) put_usage(&commands[i]);
    put_options();
    fputs(
#include "tail.def"
        , stdout);
}

/* Completion: the commands, then each one's options, the words that an option takes, and files. */
static void put_bash(void) {
    puts("# Completion of denkumari for bash; command/pages/pages.c printed it from command/help.def.\n_denkumari() {\n"
         "    local word=${COMP_WORDS[COMP_CWORD]} before=${COMP_WORDS[COMP_CWORD-1]} words=\n    COMPREPLY=()\n"
         "    if [ \"$COMP_CWORD\" -eq 1 ]; then");
    fputs("        words=\"", stdout);
    for (size_t i = 0; i < COMMANDS; i++) printf("%s ", commands[i].name);
    puts("--help --version\"\n    else\n        case ${COMP_WORDS[1]}:$before in");
    for (size_t k = 0; k < COMMANDS; k++)
        for (int i = 0; i < OPTIONS; i++) {
            const char *bar = strchr(table[i].values, '|');
            if (!(commands[k].takes >> i & 1) || !bar) continue;
            printf("        %s:%s) words=\"%.*s %s\" ;;\n", commands[k].name, table[i].name, (int)(bar - table[i].values), table[i].values, bar + 1);
        }
    for (size_t k = 0; k < COMMANDS; k++) {
        printf("        %s:*) [ \"${word#-}\" = \"$word\" ] || words=\"", commands[k].name);
        for (int i = 0; i < OPTIONS; i++)
            if (commands[k].takes >> i & 1) printf("%s ", table[i].name);
        puts("--help\" ;;");
    }
    puts("        esac\n    fi\n    [ -z \"$words\" ] || COMPREPLY=($(compgen -W \"$words\" -- \"$word\"))\n}\n"
         "complete -o default -o bashdefault -F _denkumari denkumari");
}

int main(int argc, char **argv) {
    if (argc > 1 && strcmp(argv[1], "bash") == 0) put_bash();
    else put_page();
    return fflush(stdout) == 0 && !ferror(stdout) ? 0 : 2;
}
