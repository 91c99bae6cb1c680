/* Plans of version 4: which versions pass, plan K on the bench and by seats, its three rounds a multiply, lists and call numbers, the matching, and
 * that both multiply rules give equal results. */
#include "runs.h"

enum { SEATS = 3, CALLS = 6, SEAT_3 = 4, VIEW = 18, COINS = 11 };

static struct run k;

static void run_k(void)
{
    uint8_t first[64];
    plan_k(first);
    k.plan_len = in_version(MASKING, k.plan, first, (const unsigned[]){1, 2, 3});
    k.figures_len = BYTES(2);
    k.coins_len = BYTES(COINS);
    put_list(k.figures, (const unsigned[]){4, 5}, 2);
    put_list(k.coins, (const unsigned[]){2, 3, 1, 2, 3, 4, 5, 6, 7, 8, 9}, COINS);
}

static void versions_that_pass(void)
{
    run_k();
    expect("version 4", pool_plan_check(k.plan, k.plan_len), 0, 0);
    for (unsigned version = 0; version < 256; version++) {
        k.plan[4] = (uint8_t)version;
        if (version == 0 || version > MASKING)
            expect("another version", pool_plan_check(k.plan, k.plan_len), 2, 0);
    }
    run_k();
    k.plan[6] = 2;
    expect("a product without a majority", pool_plan_check(k.plan, k.plan_len), 25, 0);
    run_k();
    hold("not converted", pool_convert_size(k.plan, k.plan_len) == 2 && pool_convert(k.plan, k.plan_len, k.figures, 0) == 2);
}

static void sizes(void)
{
    static const unsigned coins[] = {4, 4, 3}, wrote[SEATS][CALLS] = {{3, 3, 3, 3, 1, 0}, {3, 3, 3, 3, 1, 0}, {0, 3, 3, 3, 1, 1}};
    static const unsigned mail[SEATS][CALLS] = {{0, 2, 3, 3, 3, 0}, {0, 2, 3, 3, 3, 0}, {0, 2, 3, 3, 3, 3}};
    hold("3M + 3 calls", pool_calls(k.plan, k.plan_len) == CALLS << 8);
    hold("all coins", run_bytes(&k, 0, POOL_RUN_COINS) == BYTES(COINS));
    hold("seat 3's view", run_bytes(&k, SEAT_3, POOL_RUN_VIEW) == BYTES(VIEW));
    for (uint16_t seat = 1; seat <= SEATS; seat++)
        for (uint16_t call = 0; call < CALLS + 2; call++) {
            hold("a seat's coins", pool_seat_size(k.plan, k.plan_len, seat, call, POOL_SEAT_COINS) == BYTES(coins[seat - 1]) << 8);
            hold("a call's mail", pool_seat_size(k.plan, k.plan_len, seat, call, POOL_SEAT_MAIL) == (call < CALLS ? BYTES(mail[seat - 1][call]) << 8 : 0));
            hold("what a call writes", pool_seat_size(k.plan, k.plan_len, seat, call, POOL_SEAT_OUT) == (call < CALLS ? BYTES(wrote[seat - 1][call]) << 8 : 0));
        }
}

/* Seat 3's view: its coins, the inputs' pieces, the three rounds of wire 2, the outs' shares, its result. */
static void worked(void)
{
    static const unsigned want[VIEW] = {7, 8, 9, 10, 3, 10, 2, 5, 7, 3, 8, 10, 8, 6, 5, 8, 0, 2};
    static const unsigned wire_2[] = {10, 0, 1}, wire_3[] = {5, 8, 0};
    static struct seats s;
    uint8_t view[BYTES(VIEW)], bytes[BYTES(VIEW)];
    put_list(bytes, want, VIEW);
    hold("36 elements are sent", bench(&k, SEAT_3, view) == 36 << 8);
    expect_bytes("seat 3's view", view, bytes, sizeof bytes);
    apart(&k, &s);
    hold("the result by seats", s.out[CALLS - 1][2] == BYTES(1) && get(s.written[2]) == 2);
    for (unsigned seat = 0; seat < SEATS; seat++) {
        hold("a finished seat", get(s.state[seat]) == CALLS);
        hold("a share of wire 2", get(s.state[seat] + BYTES(3)) == wire_2[seat]);
        hold("a share of wire 3", get(s.state[seat] + BYTES(4)) == wire_3[seat]);
    }
}

static void matching(void)
{
    static const unsigned want[COINS] = {3, 8, 0, 6, 6, 4, 5, 2, 7, 8, 9};
    struct run other = k;
    uint8_t matched[BYTES(COINS)], bytes[BYTES(COINS)], view[2][BYTES(VIEW)];
    put_list(bytes, want, COINS);
    put_list(other.figures, (const unsigned[]){1, 1}, 2);
    expect("figures 1, 1 are matched", pool_match(k.plan, k.plan_len, SEAT_3, k.figures, BYTES(2), other.figures, BYTES(2), k.coins, BYTES(COINS), matched, BYTES(COINS)), 0, 0);
    expect_bytes("the matched coins", matched, bytes, sizeof bytes);
    memcpy(other.coins, matched, sizeof matched);
    hold("both runs are made", bench(&k, SEAT_3, view[0]) == 36 << 8 && bench(&other, SEAT_3, view[1]) == 36 << 8);
    expect_bytes("the same view", view[0], view[1], sizeof view[0]);
}

/* A call of seat 3 from a state on mail; what it writes, and the state after it. */
static void call_of_3(const char *what, const unsigned *before, const unsigned *mail, unsigned mails, const unsigned *after, const unsigned *wrote, unsigned writes)
{
    uint8_t state[BYTES(5)], bytes[BYTES(5)], m[BYTES(3)], o[BYTES(3)], coins[BYTES(3)];
    put_list(state, before, 5);
    put_list(m, mail, mails);
    put_list(coins, (const unsigned[]){7, 8, 9}, 3);
    expect(what, pool_seat_call(k.plan, k.plan_len, 3, k.figures, 0, coins, sizeof coins, NO_TRIPLES, state, sizeof state, m, BYTES(mails), o, BYTES(writes)), 0, 0);
    put_list(bytes, after, 5);
    expect_bytes(what, state, bytes, sizeof bytes);
    put_list(bytes, wrote, writes);
    expect_bytes(what, o, bytes, BYTES(writes));
}

/* The calls in the middle of a multiply leave the wire's number as it is, and the third round's mail is not checked. */
static void middle(void)
{
    uint8_t state[BYTES(5)] = {0}, coins[BYTES(3)] = {0}, none[1];
    call_of_3("call 2 keeps wire 2", (const unsigned[]){2, 10, 3, 7, 9}, (const unsigned[]){10, 2, 5}, 3, (const unsigned[]){3, 10, 3, 7, 9}, (const unsigned[]){1, 10, 8}, 3);
    call_of_3("call 3 keeps wire 2", (const unsigned[]){3, 10, 3, 7, 9}, (const unsigned[]){7, 3, 8}, 3, (const unsigned[]){4, 10, 3, 7, 9}, (const unsigned[]){8, 7, 6}, 3);
    call_of_3("call 4 learns wire 2", (const unsigned[]){4, 10, 3, 7, 9}, (const unsigned[]){10, 8, 6}, 3, (const unsigned[]){5, 10, 3, 1, 0}, (const unsigned[]){0}, 1);
    call_of_3("seat 3's part is not looked at", (const unsigned[]){4, 10, 3, 7, 9}, (const unsigned[]){10, 8, 0}, 3, (const unsigned[]){5, 10, 3, 1, 0}, (const unsigned[]){0}, 1);
    put(state, CALLS);
    expect("3M + 3: a finished seat", pool_seat_call(k.plan, k.plan_len, 3, none, 0, coins, sizeof coins, NO_TRIPLES, state, sizeof state, none, 0, none, 0), 16, 0);
    put(state, CALLS + 1);
    expect("a call number above 3M + 3", pool_seat_call(k.plan, k.plan_len, 3, none, 0, coins, sizeof coins, NO_TRIPLES, state, sizeof state, none, 0, none, 0), 15, 0);
    put(state, 0);
    expect("as many coins as version 3 has", pool_seat_call(k.plan, k.plan_len, 3, none, 0, coins, BYTES(1), NO_TRIPLES, state, sizeof state, none, 0, none, 0), 12, 0);
}

/* The last numbers of a seat's view, which are its results. */
static size_t results_of(const struct run *r, unsigned seat, uint8_t *to)
{
    static uint8_t view[MOST_VIEW];
    size_t len = run_bytes(r, 1u << seat, POOL_RUN_VIEW), count = 0;
    for (unsigned o = 0; o < get_field(r->plan, OUT_COUNT); o++)
        count += r->plan[get_field(r->plan, OUTS_AT) + 3 * o] == seat + 1;
    expect("the bench runs", POOL_REFUSAL(bench(r, 1u << seat, view)), 0, 0);
    memcpy(to, view + len - BYTES(count), BYTES(count));
    return BYTES(count);
}

/* One plan under both rules, on the same figures; where nothing is multiplied all else is the same, too. */
static void both_rules(unsigned times)
{
    static const unsigned primes[] = {17, 257, 65521, 65537, MOST_PRIME};
    static struct run third, fourth;
    unsigned points[15];
    for (unsigned i = 0; i < times; i++) {
        unsigned p = primes[below(5)];
        do
            any_plan(&third, 3, p);
        while (third.plan[6] == 0);
        any_points(points, third.plan[5], p);
        for (unsigned seat = 0; seat < third.plan[5]; seat++)
            point(third.plan, seat, points[seat]);
        any_triples(&third);
        fourth = third;
        fourth.plan[4] = MASKING;
        any_lists(&fourth);
        memcpy(fourth.figures, third.figures, sizeof third.figures);
        for (unsigned seat = 0; seat < third.plan[5]; seat++) {
            uint8_t results[2][BYTES(MOST_OUTS)];
            size_t len = results_of(&third, seat, results[0]);
            hold("as many results", results_of(&fourth, seat, results[1]) == len);
            expect_bytes("both rules give equal results", results[0], results[1], len);
        }
        if (third.coins_len == fourth.coins_len && pool_calls(third.plan, third.plan_len) == pool_calls(fourth.plan, fourth.plan_len))
            same_plan(&third, &fourth);
    }
}

/* As many products as there may be. */
static void most(void)
{
    static uint8_t plan[MOST_PLAN];
    size_t len = contents_in(MASKING, plan, 15, 7, MOST_PRIME, 1024, 1);
    for (unsigned g = 0; g < 1024; g++)
        gate(plan, g, g ? 5 : 1, g ? g - 1 : 1, 0);
    out(plan, 1024, 0, 15, 1023);
    hold("3,072 calls", POOL_VALUE(pool_calls(plan, len)) == 3072);
    hold("their coins", POOL_VALUE(pool_run_size(plan, len, 0, POOL_RUN_COINS)) == BYTES(7 + 1023 * 315));
    hold("a seat's coins", POOL_VALUE(pool_seat_size(plan, len, 15, 0, POOL_SEAT_COINS)) == BYTES(1023 * 21));
    hold("the last call's mail", POOL_VALUE(pool_seat_size(plan, len, 15, 3071, POOL_SEAT_MAIL)) == BYTES(15));
    hold("no call after it", POOL_VALUE(pool_seat_size(plan, len, 15, 3072, POOL_SEAT_MAIL)) == 0);
}

int main(void)
{
    versions_that_pass();
    run_k();
    sizes();
    worked();
    matching();
    middle();
    both_rules(300);
    most();
    printf("%d passed, %d failed\n", passed, failed);
    return failed != 0;
}
