/* pool: the library at a desk. Each subcommand reads files, asks the library for sizes, makes its calls, and prints what they answer. */
#include <inttypes.h>
#include <signal.h>
#include <stdarg.h>
#include <stdlib.h>
#include <string.h>

#include "command.h"
#include "pool.h"

static const struct command *const commands[] = {
    &check_command,
    &show_command,
    &run_command,
    &match_command,
    &import_command,
    &sheet_command,
    &convert_command,
    &charge_command,
    &record_command,
    &read_command,
    &count_command,
    &prepare_command,
    &triples_command,
};

enum { COMMANDS = sizeof commands / sizeof *commands };

const struct command *current;

static const char about[] =
    "A plan is a file. A list of numbers is decimal text: the numbers themselves, as 4,5, or a\n"
    "file that has them, parted by commas, blanks or lines. `-` is standard input.\n"
    "\n"
    "Exit status: 0 done; 1 refused, with the refusal on standard error; 2 the command line or a\n"
    "list is not understood; 3 a file cannot be read or written. A refused command has written\n"
    "nothing, and an output file is replaced as a whole or not at all.\n";

/* ---- ends */

/* A message: the program, the subcommand where there is one, and the words. */
static void say(const char *format, va_list args)
{
    fprintf(stderr, "pool%s%s: ", current ? " " : "", current ? current->name : "");
    vfprintf(stderr, format, args);
    fputc('\n', stderr);
}

_Noreturn void fail(enum fault fault, const char *format, ...)
{
    va_list args;
    va_start(args, format);
    say(format, args);
    va_end(args);
    exit(fault == NOT_UNDERSTOOD ? USAGE : SYSTEM);
}

_Noreturn void bad_usage(const char *format, ...)
{
    va_list args;
    va_start(args, format);
    say(format, args);
    va_end(args);
    if (current)
        fprintf(stderr, "usage: pool %s %s\n'pool %s --help' says more.\n", current->name, current->usage, current->name);
    else
        fprintf(stderr, "'pool --help' has the list of commands.\n");
    exit(USAGE);
}

uint64_t value(uint64_t answer)
{
    unsigned number = POOL_REFUSAL(answer);
    if (!number)
        return POOL_VALUE(answer);
    fprintf(stderr, "refused %u place %" PRIu32 ": %s\n", number, POOL_PLACE(answer), pool_refusal_sentence(number));
    exit(REFUSED);
}

/* ---- help */

static void print_list(FILE *to)
{
    fprintf(to, "pool: plans of the pooling seat, checked, shown and run on one machine\n\n");
    for (size_t i = 0; i < COMMANDS; i++)
        fprintf(to, "  pool %s %s\n        %s\n", commands[i]->name, commands[i]->usage, commands[i]->line);
    fprintf(to, "\n  pool COMMAND --help   a page on one of them\n  pool --version\n\n%s", about);
}

static void print_page(FILE *to, const struct command *c)
{
    fprintf(to, "pool %s %s\n\n%s\n%s", c->name, c->usage, c->help, about);
}

static void print_help(const struct command *c)
{
    struct report r;
    open_report(&r);
    if (c)
        print_page(r.to, c);
    else
        print_list(r.to);
    close_report(&r, NULL);
}

static void print_version(void)
{
    struct report r;
    open_report(&r);
    fprintf(r.to, "pool %s\n", POOL_VERSION);
    close_report(&r, NULL);
}

static const struct command *find(const char *name)
{
    for (size_t i = 0; i < COMMANDS; i++)
        if (!strcmp(commands[i]->name, name))
            return commands[i];
    bad_usage("there is no command '%s'", name);
}

static bool asks_for_help(const char *word)
{
    return word && (!strcmp(word, "--help") || !strcmp(word, "-h"));
}

int main(int count, char **args)
{
    (void)count;
    signal(SIGXFSZ, SIG_IGN); /* a file that may not grow is a write that fails */
    if (!args[0] || !args[1])
        bad_usage("which command?");
    if (asks_for_help(args[1])) {
        print_help(NULL);
    } else if (!strcmp(args[1], "--version")) {
        print_version();
    } else if (!strcmp(args[1], "help")) {
        print_help(args[2] ? find(args[2]) : NULL);
    } else {
        const struct command *c = find(args[1]);
        for (char **word = args + 2; *word && strcmp(*word, "--"); word++)
            if (asks_for_help(*word)) {
                print_help(c);
                return DONE;
            }
        current = c;
        c->run(args + 2);
    }
    return DONE;
}
