/* Runs of a plan by the library: all seats by their own calls, and the view of a set. */
#ifndef SEATS_H
#define SEATS_H

#include "plan.h"

enum { MAX_SEATS = 15 };

/* The lines of a help page on --triples. */
#define TRIPLES_HELP \
    "  --triples FILE|LIST  all triples that the plan spends, seat by seat, as `pool triples` gives\n" \
    "                       them; where there are none, those of a preparing run with fresh draws\n" \
    "                       and coins\n"

/* All figures of a run, of the word after --figures. Where the plan has random wires and the list the other figures alone, the draws are fresh. */
struct bytes figures_for(const struct plan *plan, const char *word);

/* All coins of a run: those of the word after --coins, or fresh ones where it is null. */
struct bytes coins_for(const struct plan *plan, const char *word);

/* All triples of a run: those of the word after --triples; or where it is null those of a preparing run on this machine with fresh draws and coins,
 * and none where the plan spends none. */
struct bytes triples_for(const struct plan *plan, const char *word);

/* All triples that a run of a preparing plan ends with. */
struct bytes triples_of(const struct plan *preparing, struct bytes draws, struct bytes coins);

/* The lists that a run takes. */
struct lists {
    struct bytes figures, coins, triples;
};

/* What a set holds and receives in a run, and how many numbers all seats send; sent may be null. Refusals end the program. The lists stay. */
struct bytes view_of(const struct plan *plan, uint16_t set, struct lists run, uint64_t *sent);

/* What the library wrote or left of each seat, from seat 1 on. */
struct left {
    struct bytes results[MAX_SEATS], states[MAX_SEATS];
};

/* Each seat's results and finished state, by its own calls. The lists are of the right count, each number below the prime. */
void run_seats(const struct plan *plan, struct lists run, struct left *left);

void free_left(const struct plan *plan, struct left *left);

/* Views of the seats of a set, side by side: for each member a table with a line for each round and a column for each sender. titles has a word for
 * each view, or is null. */
void print_views(FILE *to, const struct plan *plan, uint16_t set, const struct bytes *views, const char *const *titles, size_t count);

#endif
