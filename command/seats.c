#include "seats.h"

#include <stdlib.h>
#include <string.h>

#include "command.h"
#include "pool.h"

struct bytes figures_for(const struct plan *plan, const char *word)
{
    struct bytes given = list_of("--figures", word);
    size_t draws = draws_of(plan, 0);
    if (!draws || count_of(given) != inputs_of(plan, 0))
        return given;
    struct bytes drawn = draw_numbers(draws, plan->prime), all = figures_of(plan, 0, given, drawn);
    free(given.at);
    free(drawn.at);
    return all;
}

struct bytes coins_for(const struct plan *plan, const char *word)
{
    if (word)
        return list_of("--coins", word);
    return draw_numbers(numbers_in(value(pool_run_size(plan->file.at, plan->file.len, 0, POOL_RUN_COINS))), plan->prime);
}

struct bytes triples_of(const struct plan *preparing, struct bytes draws, struct bytes coins)
{
    struct left left;
    struct lists run = {draws, coins, fresh_bytes(0)};
    free(view_of(preparing, 0, run, NULL).at); /* what is wrong with the lists is told here */
    run_seats(preparing, run, &left);
    free(run.triples.at);
    size_t own = left.states[0].len - bytes_of(1);
    struct bytes all = fresh_bytes(own * preparing->seats);
    for (unsigned i = 0; i < preparing->seats; i++)
        memcpy(all.at + own * i, left.states[i].at + bytes_of(1), own);
    free_left(preparing, &left);
    return all;
}

struct bytes triples_for(const struct plan *plan, const char *word)
{
    if (word)
        return list_of("--triples", word);
    struct bytes file = preparing_file(plan);
    if (!file.len)
        return file;
    struct plan preparing = plan_of("the preparing plan", file);
    ask_sizes(&preparing);
    struct bytes draws = draw_numbers(preparing.figure_count, preparing.prime), coins = coins_for(&preparing, NULL);
    struct bytes triples = triples_of(&preparing, draws, coins);
    free(draws.at);
    free(coins.at);
    close_plan(&preparing);
    return triples;
}

struct bytes view_of(const struct plan *plan, uint16_t set, struct lists run, uint64_t *sent)
{
    struct bytes view = fresh_bytes(value(pool_run_size(plan->file.at, plan->file.len, set, POOL_RUN_VIEW))), spent = copy_of(run.triples);
    uint64_t elements = value(pool_bench(plan->file.at, plan->file.len, set, run.figures.at, run.figures.len, run.coins.at, run.coins.len,
                                         spent.at, spent.len, view.at, view.len));
    free(spent.at);
    if (sent)
        *sent = elements;
    return view;
}

/* ---- one seat */

/* What a seat lends to its calls, and what its last call wrote. */
struct seat {
    struct bytes figures, coins, triples, state, mail, written;
};

static struct bytes own_figures(const struct plan *plan, struct bytes figures, unsigned seat)
{
    struct bytes own = fresh_bytes(seat_size(plan, seat, POOL_SEAT_FIGURES));
    size_t count = 0;
    for (size_t k = 0; k < plan->figure_count; k++)
        if (plan->figures[k].seat == seat)
            put_number(own, count++, get_number(figures, k));
    return own;
}

/* A seat's own coins stand in its view, after its figures: the library knows which they are. */
static struct bytes own_coins(const struct plan *plan, struct lists run, unsigned seat)
{
    struct bytes own = fresh_bytes(seat_size(plan, seat, POOL_SEAT_COINS));
    if (own.len) {
        struct bytes view = view_of(plan, (uint16_t)(1u << (seat - 1)), run, NULL);
        memcpy(own.at, view.at + seat_size(plan, seat, POOL_SEAT_FIGURES), own.len);
        free(view.at);
    }
    return own;
}

/* In the list of all triples those of each seat stand together. */
static struct bytes own_triples(const struct plan *plan, struct bytes triples, unsigned seat)
{
    struct bytes own = {triples.at + triples.len / plan->seats * (seat - 1), seat_size(plan, seat, POOL_SEAT_TRIPLES)};
    return copy_of(own);
}

static void make_call(const struct plan *plan, struct seat *s, unsigned seat, unsigned call)
{
    struct bytes written = fresh_bytes(written_size(plan, seat, call));
    value(pool_seat_call(plan->file.at, plan->file.len, (uint16_t)seat, s->figures.at, s->figures.len, s->coins.at, s->coins.len,
                         s->triples.at, s->triples.len, s->state.at, s->state.len, s->mail.at, s->mail.len, written.at, written.len));
    free(s->written.at);
    s->written = written;
}

/* Puts what all seats wrote to seat `to` in a call into its mail. */
static void carry(const struct plan *plan, struct seat *seats, unsigned to, unsigned call)
{
    struct bytes mail = fresh_bytes(mail_size(plan, to, call + 1));
    size_t at = 0;
    for (unsigned from = 1; from <= plan->seats; from++) {
        struct part p = part_of(plan, from, to, call);
        memcpy(mail.at + at, seats[from - 1].written.at + p.at, p.len);
        at += p.len;
    }
    free(seats[to - 1].mail.at);
    seats[to - 1].mail = mail;
}

/* ---- all seats */

void run_seats(const struct plan *plan, struct lists run, struct left *left)
{
    struct seat seats[MAX_SEATS];
    for (unsigned i = 1; i <= plan->seats; i++)
        seats[i - 1] = (struct seat){own_figures(plan, run.figures, i), own_coins(plan, run, i), own_triples(plan, run.triples, i),
                                     fresh_bytes(seat_size(plan, i, POOL_SEAT_STATE)), fresh_bytes(0), fresh_bytes(0)};
    for (unsigned call = 0; call < plan->calls; call++) {
        for (unsigned i = 1; i <= plan->seats; i++)
            make_call(plan, seats + i - 1, i, call);
        for (unsigned i = 1; i <= plan->seats && call + 1 < plan->calls; i++)
            carry(plan, seats, i, call);
    }
    for (unsigned i = 0; i < plan->seats; i++) {
        left->results[i] = seats[i].written;
        left->states[i] = seats[i].state;
        free(seats[i].figures.at);
        free(seats[i].coins.at);
        free(seats[i].triples.at);
        free(seats[i].mail.at);
    }
}

void free_left(const struct plan *plan, struct left *left)
{
    for (unsigned i = 0; i < plan->seats; i++) {
        free(left->results[i].at);
        free(left->states[i].at);
    }
}
