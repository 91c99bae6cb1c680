/* pool match: the coins with which a run on other figures looks the same to a set. */
#include <inttypes.h>
#include <stdlib.h>
#include <string.h>

#include "command.h"
#include "plan.h"
#include "pool.h"
#include "seats.h"

static const char *const titles[] = {"first run", "matched run"};

static struct bytes matched_coins(const struct plan *plan, uint16_t set, struct bytes first, struct bytes second, struct bytes coins)
{
    struct bytes matched = fresh_bytes(value(pool_run_size(plan->file.at, plan->file.len, set, POOL_RUN_COINS)));
    value(pool_match(plan->file.at, plan->file.len, set, first.at, first.len, second.at, second.len, coins.at, coins.len,
                     matched.at, matched.len));
    return matched;
}

/* All that the seats draw in a preparing and a main run, as one list: its parts. */
struct drawn {
    size_t draws, early, coins; /* the preparing plan's draws and coins, and the main plan's coins */
};

static struct drawn drawn_in(const struct plan *preparing, const struct plan *plan)
{
    return (struct drawn){
        value(pool_run_size(preparing->file.at, preparing->file.len, 0, POOL_RUN_FIGURES)),
        value(pool_run_size(preparing->file.at, preparing->file.len, 0, POOL_RUN_COINS)),
        value(pool_run_size(plan->file.at, plan->file.len, 0, POOL_RUN_COINS)),
    };
}

static struct bytes matched_list(const struct plan *preparing, const struct plan *plan, uint16_t set, struct bytes first, struct bytes second,
                                 struct bytes list)
{
    struct drawn d = drawn_in(preparing, plan);
    struct bytes matched = fresh_bytes(d.draws + d.early + d.coins);
    value(pool_match_prepared(preparing->file.at, preparing->file.len, plan->file.at, plan->file.len, set, first.at, first.len, second.at,
                              second.len, list.at, list.len, matched.at, matched.len));
    return matched;
}

/* A part of a list. */
static struct bytes slice(struct bytes list, size_t at, size_t len)
{
    return (struct bytes){list.at + at, len};
}

/* The width of a column: its numbers or its title. */
static int column(const struct plan *plan, const char *title)
{
    int digits = digits_of(plan), letters = (int)strlen(title);
    return digits < letters ? letters : digits;
}

/* The two columns: their titles, and a number of each run. */
static void put_titles(FILE *to, const struct plan *plan)
{
    fprintf(to, "  %*s  %*s\n", column(plan, titles[0]), titles[0], column(plan, titles[1]), titles[1]);
}

static void put_numbers(FILE *to, const struct plan *plan, uint64_t first, uint64_t second)
{
    fprintf(to, "  %*" PRIu64 "  %*" PRIu64, column(plan, titles[0]), first, column(plan, titles[1]), second);
}

static void print_figures(FILE *to, const struct plan *plan, struct bytes first, struct bytes second)
{
    fprintf(to, "figure  given by");
    put_titles(to, plan);
    for (size_t k = 0; k < plan->figure_count; k++) {
        fprintf(to, "%6zu  seat %-3u", k, plan->figures[k].seat);
        put_numbers(to, plan, get_number(first, k), get_number(second, k));
        fprintf(to, "%s\n", is_draw(plan, k) ? "  drawn" : "");
    }
}

/* Numbers that seats draw, in both runs: `coin`s or `draw`s. */
static void print_drawn(FILE *to, const struct plan *plan, const char *word, struct bytes first, struct bytes matched)
{
    size_t moved = 0;
    fprintf(to, "\n%6s          ", word);
    put_titles(to, plan);
    for (size_t i = 0; i < count_of(first); i++) {
        bool differs = get_number(first, i) != get_number(matched, i);
        moved += differs;
        fprintf(to, "%6zu          ", i);
        put_numbers(to, plan, get_number(first, i), get_number(matched, i));
        fprintf(to, "%s\n", differs ? "  moved" : "");
    }
    fprintf(to, "%zu of %zu %s%s moved\n", moved, count_of(first), word, plural(count_of(first)));
}

/* The set's views of two runs of a plan, side by side; answers whether they are the same. */
static bool print_both(FILE *to, const struct plan *plan, uint16_t set, struct lists first, struct lists second)
{
    struct bytes views[] = {view_of(plan, set, first, NULL), view_of(plan, set, second, NULL)};
    bool same = views[0].len == views[1].len && !memcmp(views[0].at, views[1].at, views[0].len);
    print_views(to, plan, set, views, titles, 2);
    free(views[0].at);
    free(views[1].at);
    return same;
}

static bool print_alone(FILE *to, const struct plan *plan, uint16_t set, struct bytes figures[2], struct bytes coins[2])
{
    struct bytes none = fresh_bytes(0);
    print_figures(to, plan, figures[0], figures[1]);
    print_drawn(to, plan, "coin", coins[0], coins[1]);
    bool same = print_both(to, plan, set, (struct lists){figures[0], coins[0], none}, (struct lists){figures[1], coins[1], none});
    free(none.at);
    return same;
}

/* A preparing and a main run: lists is all that the seats draw in both. */
static bool print_prepared(FILE *to, const struct plan *preparing, const struct plan *plan, uint16_t set, struct bytes figures[2],
                           struct bytes lists[2])
{
    struct drawn d = drawn_in(preparing, plan);
    struct lists early[2], main_run[2];
    struct bytes none = fresh_bytes(0);
    for (int run = 0; run < 2; run++) {
        early[run] = (struct lists){slice(lists[run], 0, d.draws), slice(lists[run], d.draws, d.early), none};
        main_run[run] = (struct lists){figures[run], slice(lists[run], d.draws + d.early, d.coins),
                                       triples_of(preparing, early[run].figures, early[run].coins)};
    }
    print_figures(to, plan, figures[0], figures[1]);
    fprintf(to, "\nThe preparing run\n");
    print_drawn(to, preparing, "draw", early[0].figures, early[1].figures);
    print_drawn(to, preparing, "coin", early[0].coins, early[1].coins);
    bool same = print_both(to, preparing, set, early[0], early[1]);
    fprintf(to, "\nThe main run\n");
    print_drawn(to, plan, "coin", main_run[0].coins, main_run[1].coins);
    same = print_both(to, plan, set, main_run[0], main_run[1]) && same;
    free(main_run[0].triples.at);
    free(main_run[1].triples.at);
    free(none.at);
    return same;
}

static void match(char **args)
{
    const char *path = NULL, *preparing_path = NULL, *set_word = NULL, *first_word = NULL, *second_word = NULL, *coins_word = NULL, *output = NULL;
    const struct option options[] = {
        {.name = "prepared", .value = &preparing_path},
        {.name = "set", .value = &set_word, .needed = true},
        {.name = "first", .value = &first_word, .needed = true},
        {.name = "second", .value = &second_word, .needed = true},
        {.name = "coins", .value = &coins_word, .needed = true},
        {.name = "output", .letter = 'o', .value = &output},
        {0},
    };
    read_words(args, "plan", &path, options);
    uint16_t set = set_of(set_word);
    struct plan plan = open_plan(path), preparing = {0};
    ask_sizes(&plan);
    if (preparing_path) {
        preparing = open_plan(preparing_path);
        ask_sizes(&preparing);
    }
    struct bytes figures[] = {list_of("--first", first_word), list_of("--second", second_word)}, coins[] = {list_of("--coins", coins_word), {0}};
    coins[1] = preparing_path ? matched_list(&preparing, &plan, set, figures[0], figures[1], coins[0])
                              : matched_coins(&plan, set, figures[0], figures[1], coins[0]);
    struct report r;
    open_report(&r);
    bool same = preparing_path ? print_prepared(r.to, &preparing, &plan, set, figures, coins) : print_alone(r.to, &plan, set, figures, coins);
    fprintf(r.to, "\nThe two views%s are %s.\n", preparing_path ? " of each run" : "", same ? "the same" : "NOT the same");
    close_report(&r, NULL);
    if (output) {
        struct bytes text = text_of(coins[1]);
        write_output(output, text);
        free(text.at);
    }
    for (int run = 0; run < 2; run++) {
        free(figures[run].at);
        free(coins[run].at);
    }
    close_plan(&plan);
    close_plan(&preparing);
}

const struct command match_command = {
    .name = "match",
    .line = "the coins with which a run on other figures looks the same to a set",
    .usage = "PLAN [--prepared PREPARING] --set SEATS --first FILE|LIST --second FILE|LIST --coins FILE|LIST [--output FILE]",
    .help = "Matches the coins of a run on the first figures with coins for a run on the second, such\n"
            "that the seats of the set see the same in both. The two lists of figures have to agree at\n"
            "the set's own figures and to give the set the same results. Prints both lists of figures,\n"
            "both settings of coins with those marked that moved, and the set's view of both runs side\n"
            "by side.\n"
            "\n"
            "A plan that spends triples is matched with the plan that prepares them: the set sees the same\n"
            "in both runs, and what the seats draw in the preparing run moves, too.\n"
            "\n"
            "  --prepared PREPARING the plan that `pool prepare` has written of PLAN\n"
            "  --set SEATS          the seats that put their views together, as 1,3; at most the threshold\n"
            "  --first FILE|LIST    all figures of the first run, in the plan's order, draws among them\n"
            "  --second FILE|LIST   all figures of the matched run\n"
            "  --coins FILE|LIST    all coins of the first run; with --prepared all draws of the preparing\n"
            "                       run, all its coins, and all coins of the main run, in one list\n"
            "  -o, --output FILE    write the matched coins there, too, one a line\n",
    .run = match,
};
