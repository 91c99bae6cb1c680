/* pool sheet: a formula becomes a plan. */
#include <stdlib.h>

#include "command.h"
#include "plan.h"
#include "pool.h"

static void sheet(char **args)
{
    const char *word = NULL, *result = NULL;
    struct plan_words words = {0};
    const struct option options[] = {
        PLAN_OPTIONS(words),
        {.name = "result", .letter = 'r', .value = &result, .needed = true},
        {0},
    };
    read_words(args, "formula", &word, options);
    struct plan_numbers k = plan_numbers_of(&words);
    uint32_t seat = number_word("--result", result);
    struct bytes text = formula_of(word);
    struct bytes file = fresh_bytes(value(pool_sheet_size(text.at, text.len, k.n, k.t, k.p, seat)));
    value(pool_sheet(text.at, text.len, k.n, k.t, k.p, seat, file.at, file.len));
    write_plan(words.output, file);
    free(text.at);
    free(file.at);
}

const struct command sheet_command = {
    .name = "sheet",
    .line = "a formula, as '2*a1 + a1*(b2 - 3)', becomes a plan",
    .usage = "FORMULA|FILE --seats N --threshold T --prime P --result SEAT --output PLAN",
    .help = "Reads a formula and writes a plan that computes it modulo the prime. A name is a lower-case\n"
            "letter and a seat number: b2 is a figure of seat 2. Figures stand in the order in which their\n"
            "names are first used. Numbers are decimal and below the prime; no number, and no seat, has a\n"
            "leading zero. * binds before + and -, equal ones group to the left, a minus needs a left side,\n"
            "and brackets may be nested to a depth of 16. Prints a line with the plan's counts.\n"
            "\n"
            "A word with a dot or a slash in it is the name of a file that has the formula, as ./total; any\n"
            "other word is the formula itself. The line feed at a file's end does not count. Quote a formula,\n"
            "so that the shell leaves it alone.\n"
            "\n" PLAN_OPTIONS_HELP("  -r, --result SEAT    the seat that gets the result\n"),
    .run = sheet,
};
