/* pool run: all seats of a plan in one process, by their own calls. */
#include <inttypes.h>
#include <stdlib.h>

#include "command.h"
#include "plan.h"
#include "pool.h"
#include "seats.h"

/* A seat's results stand in the order of its outs. */
static void print_results(FILE *to, const struct plan *plan, unsigned seat, struct bytes results)
{
    size_t count = 0;
    for (size_t o = 0; o < plan->out_count; o++)
        if (plan->outs[o].seat == seat)
            fprintf(to, "seat %u gets %" PRIu64 " (out %zu, wire %u)\n", seat, get_number(results, count++), o, plan->outs[o].wire);
    if (!count)
        fprintf(to, "seat %u gets nothing\n", seat);
}

static void run(char **args)
{
    const char *path = NULL, *figures_word = NULL, *coins_word = NULL, *triples_word = NULL, *set_word = NULL, *output = NULL;
    const struct option options[] = {
        {.name = "figures", .value = &figures_word, .needed = true},
        {.name = "coins", .value = &coins_word},
        {.name = "triples", .value = &triples_word},
        {.name = "set", .value = &set_word},
        {.name = "output", .letter = 'o', .value = &output},
        {0},
    };
    read_words(args, "plan", &path, options);
    uint16_t set = set_word ? set_of(set_word) : 0;
    struct plan plan = open_plan(path);
    ask_sizes(&plan);
    struct lists lists = {figures_for(&plan, figures_word), coins_for(&plan, coins_word), triples_for(&plan, triples_word)};
    struct left left;
    struct report r;
    uint64_t sent;
    struct bytes view = view_of(&plan, set, lists, &sent);
    run_seats(&plan, lists, &left);
    open_report(&r);
    for (unsigned seat = 1; seat <= plan.seats; seat++)
        print_results(r.to, &plan, seat, left.results[seat - 1]);
    fprintf(r.to, "%" PRIu64 " number%s sent\n", sent, plural(sent));
    print_views(r.to, &plan, set, &view, NULL, 1);
    close_report(&r, output);
    free_left(&plan, &left);
    free(view.at);
    free(lists.figures.at);
    free(lists.coins.at);
    free(lists.triples.at);
    close_plan(&plan);
}

const struct command run_command = {
    .name = "run",
    .line = "all seats of a plan in one process",
    .usage = "PLAN --figures FILE|LIST [--coins FILE|LIST] [--triples FILE|LIST] [--set SEATS] [--output FILE]",
    .help = "Runs every seat of the plan by its own calls, carries the mail between them, and prints\n"
            "each seat's results and how many numbers were sent.\n"
            "\n"
            "  --figures FILE|LIST  all figures, in the plan's order; or all but the draws of random\n"
            "                       wires, and fresh ones are drawn from the operating system's random\n"
            "                       source\n"
            "  --coins FILE|LIST    all coins, in the plan's order; where there are none, fresh ones\n"
            "                       are drawn from the operating system's random source\n"
            TRIPLES_HELP
            "  --set SEATS          print what these seats, as 1,3, hold and receive: a table for each,\n"
            "                       with a line for each round and a column for each sender; a product of\n"
            "                       a plan of version 4 has three: zeros, masked, and its wire; a product\n"
            "                       by a triple has one: openings, two of each seat\n"
            "  -o, --output FILE    write there instead of standard output\n",
    .run = run,
};
