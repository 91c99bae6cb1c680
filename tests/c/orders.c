/* Seats that don't wait for each other: random plans, their seats called in random orders, each as soon as all its mail for
 * that call is there. Every order ends, and the seats then hold and have received what the bench run says, number for number. */
#include <stdlib.h>

#include "plans.h"

enum { PLANS = 700, ORDERS = 20, MOST_SEATS = 7, MOST_GATES = 14, MOST_OUTS = 4, MOST_CALLS = 3 * MOST_GATES + 3, LONGEST = BYTES(256), MOST_VIEW = BYTES(2048) };

static uint8_t plan[256];
static size_t plan_len;
static unsigned seats, calls;
static uint8_t figures[LONGEST], coins[LONGEST * 8], triples[LONGEST * 8];

/* A seat: what it was given, its triples and state, how many calls it has made and what each of these wrote, its mail and its results. */
static struct seat {
    uint8_t figures[LONGEST], coins[LONGEST * 8], triples[BYTES(3 * MOST_GATES + 1)], state[BYTES(MOST_GATES + 1)], wrote[MOST_CALLS][LONGEST], view[MOST_VIEW];
    size_t figures_len, coins_len, triples_len, wrote_len[MOST_CALLS], view_len;
    unsigned made;
} seat[MOST_SEATS + 1];

/* The sizes of the seats' lists, asked for once a plan, since each answer checks the plan. */
static size_t sizes[MOST_SEATS + 1][MOST_CALLS][POOL_SEAT_TRIPLES + 1];

static size_t size(unsigned s, unsigned k, unsigned what)
{
    return sizes[s][k][what];
}

static void ask_sizes(void)
{
    calls = (unsigned)POOL_VALUE(pool_calls(plan, plan_len));
    for (unsigned i = 0; i < seats * calls; i++)
        for (unsigned what = 0; what <= POOL_SEAT_TRIPLES; what++)
            sizes[1 + i / calls][i % calls][what] = (size_t)POOL_VALUE(pool_seat_size(plan, plan_len, (uint16_t)(1 + i / calls), (uint16_t)(i % calls), (uint16_t)what));
}

/* A plan of any version with gates of every kind at random; the first is an input or a random wire, and none multiplies where 2t is not below n. t
 * is 1 at least, so that a seat alone is a set. */
static void make_plan(void)
{
    static const unsigned primes[] = {11, 13, 101, 257, 65521, 65537, MOST_PRIME};
    unsigned points[15], version = 1 + below(VERSIONS);
    seats = 2 + below(MOST_SEATS - 1);
    unsigned t = 1 + below(seats - 1), p = primes[below(version > 2 ? 7 : 5)], gates = 1 + below(MOST_GATES), outs = 1 + below(MOST_OUTS);
    plan_len = contents_in(version, plan, seats, t, p, gates, outs);
    for (unsigned g = 0; g < gates; g++) {
        unsigned kind = g == 0 ? 1 + 5 * below(2) : 1 + below(7), multiplies = kind == 5 || kind == 7;
        any_gate(plan, g, multiplies && 2 * t >= seats ? 2 : kind, seats, p);
    }
    for (unsigned o = 0; o < outs; o++)
        out(plan, gates, o, 1 + below(seats), below(gates));
    any_points(points, seats, p);
    for (unsigned i = 0; has_points(versions[version]) && i < seats; i++)
        point(plan, i, points[i]);
    ask_sizes();
}

/* Figures, coins and triples, as the bench takes them; each seat's own figures and coins stand in front of the view of the seat alone. */
static void deal_lists(void)
{
    static uint8_t spent[sizeof triples], zeros[sizeof triples];
    unsigned p = get_field(plan, PRIME);
    size_t triples_len = triples_for(plan, triples);
    size_t figures_len = (size_t)POOL_VALUE(pool_run_size(plan, plan_len, 0, POOL_RUN_FIGURES));
    size_t coins_len = (size_t)POOL_VALUE(pool_run_size(plan, plan_len, 0, POOL_RUN_COINS));
    for (size_t i = 0; i < figures_len; i += BYTES(1))
        put(figures + i, below(p));
    for (size_t i = 0; i < coins_len; i += BYTES(1))
        put(coins + i, below(p));
    for (unsigned s = 1; s <= seats; s++) {
        struct seat *one = &seat[s];
        uint16_t set = (uint16_t)(1u << (s - 1));
        one->view_len = (size_t)POOL_VALUE(pool_run_size(plan, plan_len, set, POOL_RUN_VIEW));
        one->figures_len = size(s, 0, POOL_SEAT_FIGURES);
        one->coins_len = size(s, 0, POOL_SEAT_COINS);
        one->triples_len = size(s, 0, POOL_SEAT_TRIPLES);
        memcpy(spent, triples, triples_len);
        uint64_t answer = pool_bench(plan, plan_len, set, figures, figures_len, coins, coins_len, spent, triples_len, one->view, one->view_len);
        expect("the bench runs", POOL_REFUSAL(answer), 0, 0);
        expect_bytes("it spends all triples", spent, zeros, triples_len);
        memcpy(one->figures, one->view, one->figures_len);
        memcpy(one->coins, one->view + one->figures_len, one->coins_len);
    }
}

/* The bytes that seat s's call number k has for a seat, and where they stand in what it wrote. */
static size_t part(unsigned s, unsigned k, unsigned to, size_t *at)
{
    *at = 0;
    size_t len = 0;
    for (unsigned i = 1; i <= to; i++) {
        *at += len;
        len = k + 2 < calls ? size(s, k, POOL_SEAT_OUT) / seats : size(i, k + 1, POOL_SEAT_MAIL) / seats;
    }
    return len;
}

/* The mail of a seat's next call as far as it is there. */
static size_t mail_so_far(unsigned s, uint8_t *mail)
{
    size_t len = 0;
    unsigned k = seat[s].made;
    for (unsigned from = 1; k > 0 && from <= seats; from++) {
        size_t at, bytes = part(from, k - 1, s, &at);
        if (seat[from].made < k)
            continue;
        memcpy(mail + len, seat[from].wrote[k - 1] + at, bytes);
        len += bytes;
    }
    return len;
}

/* Calls a seat where it may be called: whether it was. Its mail has to be the bench's, the next part of its view. */
static int call(unsigned s, size_t *seen)
{
    static uint8_t mail[LONGEST * MOST_SEATS];
    struct seat *one = &seat[s];
    unsigned k = one->made;
    if (k >= calls)
        return 0;
    size_t len = mail_so_far(s, mail);
    if (len != size(s, k, POOL_SEAT_MAIL))
        return 0;
    one->wrote_len[k] = size(s, k, POOL_SEAT_OUT);
    uint64_t answer = pool_seat_call(plan, plan_len, (uint16_t)s, one->figures, one->figures_len, one->coins, one->coins_len, one->triples, one->triples_len,
                                     one->state, size(s, 0, POOL_SEAT_STATE), mail, len, one->wrote[k], one->wrote_len[k]);
    expect("a call that has all its mail", answer, 0, 0);
    expect_bytes("its mail is the bench's", mail, one->view + *seen, len);
    *seen += len;
    one->made++;
    return 1;
}

/* One order: seats at random until all have finished. A round of tries in which no seat could be called fails. */
static void in_some_order(void)
{
    size_t seen[MOST_SEATS + 1];
    unsigned left = seats * calls, favourite = 1 + below(seats), turns = 1 + below(8);
    for (unsigned s = 1; s <= seats; s++) {
        memset(seat[s].state, 0, sizeof seat[s].state);
        memcpy(seat[s].triples, triples + seat[s].triples_len * (s - 1), seat[s].triples_len);
        seat[s].made = 0;
        seen[s] = seat[s].figures_len + seat[s].coins_len;
    }
    for (unsigned tries = 0; left > 0 && tries < 100000; tries++) {
        unsigned s = tries % turns ? favourite : 1 + below(seats);
        left -= (unsigned)call(s, &seen[s]);
        if (below(16) == 0)
            favourite = 1 + below(seats);
    }
    expect("every order ends", left, 0, 0);
    for (unsigned s = 1; s <= seats; s++) {
        static const uint8_t spent[sizeof seat[s].triples];
        expect_bytes("all triples are spent", seat[s].triples, spent, seat[s].triples_len);
        size_t results = seat[s].wrote_len[calls - 1];
        expect("a view is figures, coins, mail and results", seen[s] + results == seat[s].view_len ? 0 : 255, 0, 0);
        expect_bytes("the results are the bench's", seat[s].wrote[calls - 1], seat[s].view + seen[s], results);
    }
}

int main(void)
{
    for (unsigned i = 0; i < PLANS; i++) {
        make_plan();
        deal_lists();
        for (unsigned order = 0; order < ORDERS; order++)
            in_some_order();
    }
    printf("%d passed, %d failed\n", passed, failed);
    return failed != 0;
}
