/* pool import: a circuit in Bristol Fashion becomes a plan. */
#include <stdlib.h>
#include <string.h>

#include "command.h"
#include "plan.h"
#include "pool.h"

static void import(char **args)
{
    const char *path = NULL;
    struct plan_words words = {0};
    const struct option options[] = {PLAN_OPTIONS(words), {0}};
    read_words(args, "circuit", &path, options);
    struct plan_numbers k = plan_numbers_of(&words);
    struct bytes text = input(path);
    struct bytes file = fresh_bytes(value(pool_import_size(text.at, text.len, k.n, k.t, k.p)));
    value(pool_import(text.at, text.len, k.n, k.t, k.p, file.at, file.len));
    write_plan(words.output, file);
    free(text.at);
    free(file.at);
}

const struct command import_command = {
    .name = "import",
    .line = "a circuit of XOR, AND and INV in Bristol Fashion becomes a plan",
    .usage = "CIRCUIT --seats N --threshold T --prime P --output PLAN",
    .help = "Reads a circuit in Bristol Fashion text and writes a plan that computes it. Input value k\n"
            "belongs to seat k: its figures are the value's bits, 0 or 1, in wire order. Seat 1 gets the\n"
            "output bits. Prints a line with the plan's counts.\n"
            "\n" PLAN_OPTIONS_HELP(""),
    .run = import,
};
