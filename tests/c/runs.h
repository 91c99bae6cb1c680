/* Random plans with figures and coins, their seats run apart, and that two files of one plan are answered alike. */
#ifndef RUNS_H
#define RUNS_H

#include "plans.h"

enum { MOST_GATES = 24, MOST_OUTS = 6, MOST_COINS = BYTES(15 * 21 * MOST_GATES), MOST_OWN = BYTES(3 * MOST_GATES) };
enum { MOST_CALLS = 3 * MOST_GATES + 3, MOST_VIEW = BYTES(1 << 16), MOST_WRITTEN = BYTES(15 * MOST_GATES) };

/* A plan, its figures (a random wire has one of each seat), coins and triples. */
struct run {
    uint8_t plan[MOST_PLAN], figures[BYTES(15 * MOST_GATES)], coins[MOST_COINS], triples[15 * MOST_OWN];
    size_t plan_len, figures_len, coins_len, triples_len;
};

static inline size_t run_bytes(const struct run *r, unsigned set, unsigned what)
{
    return (size_t)POOL_VALUE(pool_run_size(r->plan, r->plan_len, (uint16_t)set, (uint16_t)what));
}

/* Triples such as a preparing run makes. */
static inline void any_triples(struct run *r)
{
    r->triples_len = triples_for(r->plan, r->triples);
}

/* Figures, coins and triples at random, now and then the largest. */
static inline void any_lists(struct run *r)
{
    unsigned p = get_field(r->plan, PRIME);
    r->figures_len = run_bytes(r, 0, POOL_RUN_FIGURES);
    r->coins_len = run_bytes(r, 0, POOL_RUN_COINS);
    for (size_t i = 0; i < r->figures_len; i += BYTES(1))
        put(r->figures + i, below(8) ? below(p) : p - 1);
    for (size_t i = 0; i < r->coins_len; i += BYTES(1))
        put(r->coins + i, below(8) ? below(p) : p - 1);
    any_triples(r);
}

/* A plan of this version and prime with gates of every kind, one in four with triples that are spent; the points are 1 to n. */
static inline void any_plan(struct run *r, unsigned version, unsigned p)
{
    unsigned n = 1 + below(15), t = below((n + 1) / 2), gates = 1 + below(MOST_GATES), outs = 1 + below(MOST_OUTS), kinds = below(4) ? 6 : 7;
    r->plan_len = contents_in(version, r->plan, n, t, p, gates, outs);
    for (unsigned g = 0; g < gates; g++)
        any_gate(r->plan, g, g == 0 ? 1 : 1 + below(kinds), n, p);
    for (unsigned o = 0; o < outs; o++)
        out(r->plan, gates, o, 1 + below(n), below(gates));
    any_lists(r);
}

/* How many figures a seat has at a gate, and how many coins it takes there. In both lists seats stand ascending within a gate. */
static inline unsigned figures_at(const uint8_t *plan, unsigned g, unsigned seat)
{
    const uint8_t *at = gate_place(plan, g);
    return at[0] == 6 || (at[0] == 1 && get_bytes(at + 2, version_of(plan).field) == seat);
}

static inline unsigned coins_at(const uint8_t *plan, unsigned g, unsigned seat)
{
    unsigned t = plan[6];
    if (gate_place(plan, g)[0] != 5)
        return t * figures_at(plan, g, seat);
    return plan[4] >= MASKING ? 3 * t : seat <= 2 * t + 1 ? t : 0;
}

/* A prime above 15 that has room in two bytes. */
static inline unsigned small_prime(void)
{
    static const unsigned primes[] = {17, 19, 101, 251, 257, 4099, 65521};
    return primes[below(7)];
}

/* A set of at most t seats. */
static inline uint16_t any_set(const uint8_t *plan)
{
    unsigned set = 0;
    for (unsigned k = plan[6]; k > 0; k--)
        set |= 1u << below(plan[5]);
    return (uint16_t)set;
}

/* The bench, on triples that the run keeps. */
static inline uint64_t bench(const struct run *r, unsigned set, uint8_t *view)
{
    static uint8_t triples[sizeof r->triples];
    memcpy(triples, r->triples, r->triples_len);
    return pool_bench(r->plan, r->plan_len, (uint16_t)set, r->figures, r->figures_len, r->coins, r->coins_len, triples, r->triples_len, view,
        run_bytes(r, set, POOL_RUN_VIEW));
}

/* ---- seats apart */

/* All seats: the sizes of their lists, asked for once, since each answer checks the plan; their own figures and coins, triples, states, what they wrote
 * last; and all triples, states and writings of a run, in order. */
struct seats {
    unsigned n, calls;
    size_t figures[15], coins[15], state_len, triples_len, mail[MOST_CALLS][15], out[MOST_CALLS][15], all_len;
    uint8_t own[15][MOST_COINS + BYTES(MOST_GATES)], triples[15][MOST_OWN + 1], state[15][BYTES(MOST_GATES + 1)], written[15][MOST_WRITTEN], all[1 << 20];
};

static inline void ask_sizes(const struct run *r, struct seats *s)
{
    s->n = r->plan[5];
    s->calls = (unsigned)POOL_VALUE(pool_calls(r->plan, r->plan_len));
    s->state_len = BYTES(get_field(r->plan, GATE_COUNT) + 1);
    s->triples_len = r->triples_len / s->n;
    for (unsigned i = 0; i < s->n * s->calls; i++) {
        uint16_t seat = (uint16_t)(i % s->n + 1), call = (uint16_t)(i / s->n);
        s->mail[call][seat - 1] = (size_t)POOL_VALUE(pool_seat_size(r->plan, r->plan_len, seat, call, POOL_SEAT_MAIL));
        s->out[call][seat - 1] = (size_t)POOL_VALUE(pool_seat_size(r->plan, r->plan_len, seat, call, POOL_SEAT_OUT));
    }
}

/* A seat's own numbers stand at the front of its view. */
static inline void own_lists(const struct run *r, struct seats *s)
{
    static uint8_t view[MOST_VIEW];
    for (unsigned i = 0; i < s->n; i++) {
        uint16_t seat = (uint16_t)(i + 1);
        s->figures[i] = (size_t)POOL_VALUE(pool_seat_size(r->plan, r->plan_len, seat, 0, POOL_SEAT_FIGURES));
        s->coins[i] = (size_t)POOL_VALUE(pool_seat_size(r->plan, r->plan_len, seat, 0, POOL_SEAT_COINS));
        bench(r, 1u << i, view);
        memcpy(s->own[i], view, s->figures[i] + s->coins[i]);
    }
}

/* Of what seat `from` wrote in a call, the part for seat `to`: its bytes, and where it stands. Of the outs each seat gets its own. */
static inline size_t part_for(const struct seats *s, unsigned from, unsigned to, unsigned call, size_t *at)
{
    size_t len = 0;
    *at = 0;
    for (unsigned i = 0; i <= to; i++) {
        *at += len;
        len = (call + 2 < s->calls ? s->out[call][from] : s->mail[call + 1][i]) / s->n;
    }
    return len;
}

/* A seat's call, the seat counted from 0, on what all wrote in the call before. What it writes waits in `next`. */
static inline uint64_t seat_call(const struct run *r, struct seats *s, unsigned seat, unsigned call, uint8_t *next)
{
    static uint8_t mail[MOST_WRITTEN];
    size_t mail_len = 0, out_len = s->out[call][seat];
    uint8_t *own = s->own[seat];
    for (unsigned from = 0; call && from < s->n; from++) {
        size_t at, len = part_for(s, from, seat, call - 1, &at);
        memcpy(mail + mail_len, s->written[from] + at, len);
        mail_len += len;
    }
    uint64_t answer = pool_seat_call(r->plan, r->plan_len, (uint16_t)(seat + 1), own, s->figures[seat], own + s->figures[seat], s->coins[seat],
        s->triples[seat], s->triples_len, s->state[seat], s->state_len, mail, mail_len, next, out_len);
    memcpy(s->all + s->all_len, s->triples[seat], s->triples_len);
    s->all_len += s->triples_len;
    memcpy(s->all + s->all_len, s->state[seat], s->state_len);
    memcpy(s->all + s->all_len + s->state_len, next, out_len);
    s->all_len += s->state_len + out_len;
    return answer;
}

/* Fresh seats: states of 0, and each seat's triples. */
static inline void refresh(const struct run *r, struct seats *s)
{
    memset(s->state, 0, sizeof s->state);
    for (unsigned i = 0; i < s->n; i++)
        memcpy(s->triples[i], r->triples + s->triples_len * i, s->triples_len);
    s->all_len = 0;
}

/* All calls of all seats. Each seat's results are what it wrote last. t is 1 at least, so that a seat alone is a set. */
static inline void apart(const struct run *r, struct seats *s)
{
    static uint8_t next[15][MOST_WRITTEN];
    unsigned refused = 0;
    ask_sizes(r, s);
    own_lists(r, s);
    refresh(r, s);
    for (unsigned i = 0; i < s->n * s->calls; i++) {
        refused += seat_call(r, s, i % s->n, i / s->n, next[i % s->n]) != 0;
        if (i % s->n == s->n - 1)
            memcpy(s->written, next, sizeof next);
    }
    expect("no call of seats apart is refused", refused, 0, 0);
}

/* ---- two files of one plan */

/* All triples, states and all that is sent, in all calls. */
static inline void same_calls(const struct run *r, const struct run *other)
{
    static struct seats first, second;
    if (r->plan[6] == 0)
        return;
    apart(r, &first);
    apart(other, &second);
    hold("as many bytes of triples, states and mail", first.all_len == second.all_len);
    expect_bytes("triples, states, mail and results of all calls", first.all, second.all, first.all_len);
}

/* The bench's answers and views. */
static inline void same_bench(const struct run *r, const struct run *other, unsigned set)
{
    static uint8_t view[2][MOST_VIEW];
    hold("a view's size", run_bytes(r, set, POOL_RUN_VIEW) == run_bytes(other, set, POOL_RUN_VIEW));
    hold("the calls", pool_calls(r->plan, r->plan_len) == pool_calls(other->plan, other->plan_len));
    uint64_t first = bench(r, set, view[0]), second = bench(other, set, view[1]);
    expect("the bench is not refused", POOL_REFUSAL(first), 0, 0);
    hold("the bench's answer", first == second);
    expect_bytes("a view", view[0], view[1], run_bytes(r, set, POOL_RUN_VIEW));
}

/* The matching's answers and coins, for figures that differ at one place or nowhere. */
static inline void same_match(const struct run *r, const struct run *other, unsigned set)
{
    static uint8_t matched[2][MOST_COINS], figures[sizeof r->figures];
    memcpy(figures, r->figures, sizeof figures);
    if (below(2) && r->figures_len)
        put(figures + BYTES(below((unsigned)r->figures_len / BYTES(1))), below(get_field(r->plan, PRIME)));
    uint64_t first = pool_match(r->plan, r->plan_len, (uint16_t)set, r->figures, r->figures_len, figures, r->figures_len, r->coins, r->coins_len, matched[0], r->coins_len);
    uint64_t second = pool_match(other->plan, other->plan_len, (uint16_t)set, r->figures, r->figures_len, figures, r->figures_len, r->coins, r->coins_len, matched[1], r->coins_len);
    hold("the matching's answer", first == second);
    if (!POOL_REFUSAL(first))
        expect_bytes("matched coins", matched[0], matched[1], r->coins_len);
}

/* A plan in another file, which has the plan's figures, coins and triples from then on. */
static inline void same_plan(const struct run *r, struct run *other)
{
    uint16_t set = any_set(r->plan);
    memcpy(other->figures, r->figures, sizeof r->figures);
    memcpy(other->coins, r->coins, sizeof r->coins);
    memcpy(other->triples, r->triples, sizeof r->triples);
    other->triples_len = r->triples_len;
    other->figures_len = r->figures_len;
    other->coins_len = r->coins_len;
    same_bench(r, other, set);
    same_match(r, other, set);
    same_calls(r, other);
}

#endif
