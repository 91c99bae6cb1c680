/* Plans that only add, with t up to n - 1: an example, the largest sums, and that a multiply gate is refused there. */
#include <stdlib.h>

#include "plans.h"

enum { MOST = 15, GATES = 2 * MOST - 1, NUMBERS = 40000 };

static uint8_t plan[MOST_PLAN];
static size_t plan_len;

/* The sum of an input of each seat, to every seat. */
static void sum_of(unsigned n, unsigned t, unsigned p)
{
    unsigned gates = 2 * n - 1;
    plan_len = contents_in(version_for(p), plan, n, t, p, gates, n);
    for (unsigned g = 0; g < n; g++)
        gate(plan, g, 1, g + 1, 0);
    for (unsigned g = n; g < gates; g++)
        gate(plan, g, 2, g == n ? 0 : g - 1, g - n + 1);
    for (unsigned o = 0; o < n; o++)
        out(plan, gates, o, o + 1, gates - 1);
}

static size_t run_size(unsigned set, unsigned what)
{
    uint64_t answer = pool_run_size(plan, plan_len, (uint16_t)set, (uint16_t)what);
    expect("a size is not refused", POOL_REFUSAL(answer), 0, 0);
    return (size_t)POOL_VALUE(answer);
}

static void list(uint8_t *to, const uint8_t *numbers, size_t count)
{
    for (size_t i = 0; i < count; i++)
        put(to + BYTES(i), numbers[i]);
}

/* n = 4, t = 2, p = 5; the lecture's polynomials 2, 1 + X^2, 1 + 2X, 3X + 2X^2, and its two alternatives for plants 1 and 4. */
static void lecture(void)
{
    static const uint8_t first[4] = {2, 1, 1, 0}, coins[8] = {0, 0, 0, 1, 2, 0, 3, 2};
    static const uint8_t others[2][4] = {{2, 0, 2, 0}, {2, 2, 0, 0}};
    static const uint8_t matched[2][8] = {{0, 0, 0, 2, 2, 4, 3, 2}, {0, 0, 0, 0, 2, 1, 3, 2}};
    /* seat 1's figure, coins, mail of both rounds and result, then seat 4's */
    static const uint8_t view[24] = {2, 0, 0, 2, 2, 3, 0, 2, 1, 1, 2, 4, 0, 3, 2, 2, 2, 4, 4, 2, 1, 1, 2, 4};
    uint8_t f[BYTES(4)], s[BYTES(4)], c[BYTES(8)], m[BYTES(8)], want[BYTES(24)], v[BYTES(24)];
    sum_of(4, 2, 5);
    expect("001's plan", pool_plan_check(plan, plan_len), 0, 0);
    list(f, first, 4);
    list(c, coins, 8);
    list(want, view, 24);
    hold("a view of 24 numbers", run_size(9, POOL_RUN_VIEW) == sizeof v);
    hold("its run", POOL_REFUSAL(pool_bench(plan, plan_len, 9, f, sizeof f, c, sizeof c, NO_TRIPLES, v, sizeof v)) == 0);
    expect_bytes("its view", v, want, sizeof v);
    for (unsigned k = 0; k < 2; k++) {
        uint8_t again[BYTES(24)];
        list(s, others[k], 4);
        expect("its matching", pool_match(plan, plan_len, 9, f, sizeof f, s, sizeof s, c, sizeof c, m, sizeof m), 0, 0);
        list(want, matched[k], 8);
        expect_bytes("its coins", m, want, sizeof m);
        hold("the matched run", POOL_REFUSAL(pool_bench(plan, plan_len, 9, s, sizeof s, m, sizeof m, NO_TRIPLES, again, sizeof again)) == 0);
        expect_bytes("the same view", again, v, sizeof v);
    }
    expect("a set of three", POOL_REFUSAL(pool_bench(plan, plan_len, 7, f, sizeof f, c, sizeof c, NO_TRIPLES, v, sizeof v)), 9, 0);
}

/* Seats apart, all calls: every seat gets the sum. */
static void apart(unsigned n, const uint8_t *figures, const uint8_t *coins, unsigned t, unsigned total)
{
    static uint8_t state[MOST][BYTES(GATES + 1)], mail[MOST][BYTES(MOST)], next[MOST][BYTES(MOST)], written[BYTES(MOST)];
    unsigned gates = 2 * n - 1;
    int taken = 1, right = 1;
    memset(state, 0, sizeof state);
    for (unsigned k = 0; k < 3; k++) {
        for (unsigned i = 0; i < n; i++) {
            size_t out_len = k < 2 ? BYTES(n) : BYTES(1);
            taken &= pool_seat_call(plan, plan_len, (uint16_t)(i + 1), figures + BYTES(i), BYTES(1), coins + BYTES(t * i), BYTES(t), NO_TRIPLES, state[i], BYTES(gates + 1), mail[i],
                                    k ? BYTES(n) : 0, written, out_len) == 0;
            for (unsigned to = 0; k < 2 && to < n; to++)
                memcpy(next[to] + BYTES(i), written + BYTES(to), BYTES(1));
            right &= k < 2 || get(written) == total;
        }
        memcpy(mail, next, sizeof mail);
    }
    hold("no call of seats apart is refused", taken);
    hold("every seat gets the sum", right);
}

/* The largest sets of every n: the sum of all runs, and its matching keeps the view of all but one seat. */
static void largest(unsigned n, unsigned p)
{
    static uint8_t figures[BYTES(MOST)], second[BYTES(MOST)], coins[BYTES(NUMBERS)], matched[BYTES(NUMBERS)], view[BYTES(NUMBERS)], other[BYTES(NUMBERS)];
    unsigned t = n - 1, total = 0, alone = below(n), set = ((1u << n) - 1) & ~(1u << alone);
    sum_of(n, t, p);
    size_t figures_len = run_size(set, POOL_RUN_FIGURES), coins_len = run_size(set, POOL_RUN_COINS), view_len = run_size(set, POOL_RUN_VIEW);
    hold("a figure for each seat", figures_len == BYTES(n));
    hold("t coins for each", coins_len == BYTES((size_t)n * t));
    for (unsigned i = 0; i < n; i++) {
        put(figures + BYTES(i), below(p));
        total = (total + get(figures + BYTES(i))) % p;
    }
    for (size_t i = 0; i < coins_len; i += BYTES(1))
        put(coins + i, below(p));
    apart(n, figures, coins, t, total);
    hold("the run", POOL_REFUSAL(pool_bench(plan, plan_len, (uint16_t)set, figures, figures_len, coins, coins_len, NO_TRIPLES, view, view_len)) == 0);
    /* the lists agree at the members and in the sum, so the lists are the same; the matching hands the coins back */
    memcpy(second, figures, figures_len);
    expect("the matching", pool_match(plan, plan_len, (uint16_t)set, figures, figures_len, second, figures_len, coins, coins_len, matched, coins_len), 0, 0);
    expect_bytes("the same coins", matched, coins, coins_len);
    /* with no out to a member, the one figure may be any: its dealing's coins move by every coefficient of delta */
    for (unsigned o = 0; o < n; o++)
        out(plan, 2 * n - 1, o, alone + 1, 2 * n - 2);
    view_len = run_size(set, POOL_RUN_VIEW);
    put(second + BYTES(alone), (get(figures + BYTES(alone)) + 1) % p);
    hold("the first run", POOL_REFUSAL(pool_bench(plan, plan_len, (uint16_t)set, figures, figures_len, coins, coins_len, NO_TRIPLES, view, view_len)) == 0);
    expect("the matching", pool_match(plan, plan_len, (uint16_t)set, figures, figures_len, second, figures_len, coins, coins_len, matched, coins_len), 0, 0);
    hold("the matched run", POOL_REFUSAL(pool_bench(plan, plan_len, (uint16_t)set, second, figures_len, matched, coins_len, NO_TRIPLES, other, view_len)) == 0);
    expect_bytes("the same view", other, view, view_len);
    hold("its last coin moves", n == 1 || get(coins + BYTES(t * (alone + 1) - 1)) != get(matched + BYTES(t * (alone + 1) - 1)));
    expect("all seats are too many", POOL_REFUSAL(pool_run_size(plan, plan_len, (uint16_t)((1u << n) - 1), POOL_RUN_VIEW)), 9, 0);
}

/* K with these n and t and its out to seat 2. */
static void k_with(const char *what, unsigned n, unsigned t, unsigned number)
{
    plan_len = plan_k(plan);
    plan[5] = (uint8_t)n;
    plan[6] = (uint8_t)t;
    plan[42] = 2;
    expect(what, pool_plan_check(plan, plan_len), number, 0);
}

int main(void)
{
    lecture();
    for (unsigned n = 1; n <= MOST; n++)
        for (unsigned k = 0; k < 40; k++)
            largest(n, k % 2 ? MOST_PRIME : 65521);
    k_with("K, n = 2, t = 1", 2, 1, 25);
    k_with("K, n = 2, t = 0", 2, 0, 0);
    k_with("K, n = 4, t = 2", 4, 2, 25);
    k_with("K, n = 5, t = 2", 5, 2, 0);
    k_with("K, n = 10, t = 5", 10, 5, 25);
    k_with("K, n = 3, t = 3", 3, 3, 4);
    k_with("K, n = 3, t = 255", 3, 255, 4);
    printf("%d passed, %d failed\n", passed, failed);
    return failed != 0;
}
