/* pool record: a run of all seats, stored in a file. */
#include <stdlib.h>

#include "command.h"
#include "plan.h"
#include "pool.h"
#include "seats.h"

static void record(char **args)
{
    const char *path = NULL, *figures_word = NULL, *coins_word = NULL, *triples_word = NULL, *output = NULL;
    const struct option options[] = {
        {.name = "figures", .value = &figures_word, .needed = true},
        {.name = "coins", .value = &coins_word},
        {.name = "triples", .value = &triples_word},
        {.name = "output", .letter = 'o', .value = &output, .needed = true},
        {0},
    };
    read_words(args, "plan", &path, options);
    struct plan plan = open_plan(path);
    struct bytes figures = figures_for(&plan, figures_word), coins = coins_for(&plan, coins_word);
    struct bytes triples = triples_for(&plan, triples_word);
    struct bytes stored = fresh_bytes(value(pool_record_size(plan.file.at, plan.file.len)));
    value(pool_record(plan.file.at, plan.file.len, figures.at, figures.len, coins.at, coins.len, triples.at, triples.len, stored.at,
                      stored.len));
    size_t numbers = numbers_in(stored.len - POOL_RECORD_ENTRY * plan.seats);
    struct report r;
    open_report(&r);
    fprintf(r.to, "%zu bytes: %zu number%s of %u seat%s.\n", stored.len, numbers, plural(numbers), plan.seats, plural(plan.seats));
    write_and_report(output, stored, &r);
    free(figures.at);
    free(coins.at);
    free(triples.at);
    free(stored.at);
    close_plan(&plan);
}

const struct command record_command = {
    .name = "record",
    .line = "a run of all seats, stored in a file",
    .usage = "PLAN --figures FILE|LIST [--coins FILE|LIST] [--triples FILE|LIST] --output RECORD",
    .help = "Runs all seats of the plan and stores the run: for each seat its figures, its coins, each\n"
            "round's mail and its results. `pool read` shows what is stored. The file has every seat's\n"
            "secrets: who may see only a seat's own gets what `pool read --seat` shows. Prints a line with\n"
            "the record's counts.\n"
            "\n"
            "  --figures FILE|LIST  all figures, in the plan's order; or all but the draws of random\n"
            "                       wires, and fresh ones are drawn from the operating system's random\n"
            "                       source\n"
            "  --coins FILE|LIST    all coins, in the plan's order; where there are none, fresh ones\n"
            "                       are drawn from the operating system's random source\n"
            TRIPLES_HELP
            "  -o, --output RECORD  the file that is written\n",
    .run = record,
};
