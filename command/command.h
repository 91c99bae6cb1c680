/* What the subcommands of pool share: the command line, what is read, what is printed, and how the program ends. */
#ifndef COMMAND_H
#define COMMAND_H

#include <stdbool.h>
#include <stdio.h>

#include "lists.h"

/* How the program ends. */
enum { DONE = 0, REFUSED = 1, USAGE = 2, SYSTEM = 3 };

/* A subcommand: a file of its own, and a row of the table in pool.c. */
struct command {
    const char *name;
    const char *line;  /* what it does, for the list of all */
    const char *usage; /* its words after its name */
    const char *help;  /* its page */
    void (*run)(char **args);
};

extern const struct command check_command, show_command, run_command, match_command, import_command, sheet_command, convert_command, charge_command,
    record_command, read_command, count_command, prepare_command, triples_command;

/* The subcommand that runs; null before it is known. */
extern const struct command *current;

/* ---- the command line (words.c) */

/* An option: `--name VALUE`, `--name=VALUE` or `-letter VALUE`; alone where it is a flag. */
struct option {
    const char *name;
    char letter;        /* 0 for none */
    const char **value; /* null for a flag */
    bool *flag;         /* null for a value */
    bool needed;
};

/* An operand: what it is in words, and where it is put. */
struct operand {
    const char *name;
    const char **value;
};

/* Reads the words of a subcommand: its operands in order, all needed, and its options; a row without a name ends either table. Bad usage ends
 * the program. */
void read_operands(char **args, const struct operand *operands, const struct option *options);

/* The same with one operand. */
void read_words(char **args, const char *operand_name, const char **operand, const struct option *options);

/* Ends the program: the message, and a hint. */
_Noreturn void bad_usage(const char *format, ...) __attribute__((format(printf, 1, 2)));

/* The number that a word is, at most 4,294,967,295. */
uint32_t number_word(const char *option, const char *word);

/* The set that a word as 1,3 names: bit i - 1 stands for seat i. */
uint16_t set_of(const char *word);

/* What a command that makes a plan is given beside its text: the plan's numbers, and the file. */
struct plan_words {
    const char *seats, *threshold, *prime, *output;
};

struct plan_numbers {
    uint32_t n, t, p;
};

/* Rows of a table of options, all needed, and their lines of a help page, with those of others between them. */
#define PLAN_OPTIONS(words) \
    {.name = "seats", .letter = 'n', .value = &(words).seats, .needed = true}, \
    {.name = "threshold", .letter = 't', .value = &(words).threshold, .needed = true}, \
    {.name = "prime", .letter = 'p', .value = &(words).prime, .needed = true}, \
    {.name = "output", .letter = 'o', .value = &(words).output, .needed = true}
#define PLAN_OPTIONS_HELP(others) \
    "  -n, --seats N        how many seats the plan has\n" \
    "  -t, --threshold T    the most seats that may put their views together\n" \
    "  -p, --prime P        the prime, at most 2147483647; above 65535 the plan is of version 3\n" others \
    "  -o, --output PLAN    the plan file that is written\n"

struct plan_numbers plan_numbers_of(const struct plan_words *words);

/* ---- input (input.c) */

/* The bytes of a file; `-` is standard input. */
struct bytes input(const char *path);

/* The formula of a word: the formula itself, or a file that has it, which a word with a dot or a slash names. A file's last line feed is left out. */
struct bytes formula_of(const char *word);

/* The list of an option's word: the numbers themselves, or a file that has them. */
struct bytes list_of(const char *option, const char *word);

/* ---- output (output.c) */

/* A text that is kept until all of it is there, so that nothing is written where something is refused. */
struct report {
    FILE *to;
    char *text;
    size_t len;
};

void open_report(struct report *r);

/* Ends the report: its text. */
struct bytes close_text(struct report *r);

/* Writes the report to a file, or to standard output where path is null or `-`. */
void close_report(struct report *r, const char *path);

/* Replaces a file as a whole, or writes standard output for `-`. */
void write_output(const char *path, struct bytes all);

/* Puts a text at the right of its column. The blanks before it wait in *blanks until something stands after them, so that no line ends in blanks. */
void put_right(FILE *to, int *blanks, int width, const char *text);

/* Writes a file, and the report to standard output where the file is another. */
void write_and_report(const char *path, struct bytes all, struct report *r);

/* The ending of a counted word. */
static inline const char *plural(size_t count)
{
    return count == 1 ? "" : "s";
}

/* ---- answers of the library */

/* The value of an answer; a refusal is printed and ends the program. */
uint64_t value(uint64_t answer);

#endif
