/* pool triples: the triples that a run of a preparing plan ends with. */
#include <stdlib.h>

#include "command.h"
#include "plan.h"
#include "seats.h"

static void triples(char **args)
{
    const char *path = NULL, *draws_word = NULL, *coins_word = NULL, *output = NULL;
    const struct option options[] = {
        {.name = "draws", .value = &draws_word},
        {.name = "coins", .value = &coins_word},
        {.name = "output", .letter = 'o', .value = &output},
        {0},
    };
    read_words(args, "preparing plan", &path, options);
    struct plan plan = open_plan(path);
    if (!prepares(&plan))
        fail(NOT_UNDERSTOOD, "%s prepares no triples: `pool prepare` writes a plan that does", path);
    ask_sizes(&plan);
    struct bytes draws = draws_word ? list_of("--draws", draws_word) : draw_numbers(plan.figure_count, plan.prime);
    struct bytes coins = coins_for(&plan, coins_word), all = triples_of(&plan, draws, coins), text = text_of(all);
    write_output(output ? output : "-", text);
    struct bytes lists[] = {draws, coins, all, text};
    for (size_t i = 0; i < sizeof lists / sizeof *lists; i++)
        free(lists[i].at);
    close_plan(&plan);
}

const struct command triples_command = {
    .name = "triples",
    .line = "the triples that a run of a preparing plan ends with",
    .usage = "PREPARING [--draws FILE|LIST] [--coins FILE|LIST] [--output FILE]",
    .help = "Runs every seat of a plan that `pool prepare` has written, and prints all triples, one number\n"
            "a line, seat by seat: a seat has three numbers for each triple, its shares of a, b and their\n"
            "product. `pool run --triples` and `pool record --triples` take them. They are every seat's\n"
            "secrets, and no two runs may spend the same.\n"
            "\n"
            "  --draws FILE|LIST  all that the seats draw for the random wires, in the plan's order;\n"
            "                     where there are none, fresh draws from the operating system's random\n"
            "                     source\n"
            "  --coins FILE|LIST  all coins of the preparing run; where there are none, fresh ones\n"
            "  -o, --output FILE  write there instead of standard output\n",
    .run = triples,
};
