/* Drives the three seats of plan K through all their calls with mail carried by hand, and tries the refusals that C can provoke. */
#include "plans.h"

enum { SEATS = 3, GATES = 4, CALLS = 4, LONGEST = BYTES(32) };

static uint8_t plan[64];
static size_t plan_len;

/* Plan K's figures and coins, seat by seat: the coins of seat 1 are 2 (its input) and 1, of seat 2 are 3 and 5, of seat 3 is 7. */
static const unsigned figure_numbers[SEATS][1] = {{4}, {5}};
static const unsigned coin_numbers[SEATS][2] = {{2, 1}, {3, 5}, {7}};
static uint8_t figures[SEATS][BYTES(1)], coins[SEATS][BYTES(2)];
static const size_t figure_bytes[SEATS] = {BYTES(1), BYTES(1), 0};
static const size_t coin_bytes[SEATS] = {BYTES(2), BYTES(2), BYTES(1)};

static uint8_t state[SEATS][BYTES(GATES + 1)];
static uint8_t mail[SEATS][LONGEST];
static size_t mail_bytes[SEATS];

static uint64_t call(unsigned seat, const uint8_t *m, size_t m_len, uint8_t *o, size_t o_len)
{
    unsigned s = seat - 1;
    return pool_seat_call(plan, plan_len, (uint16_t)seat, figures[s], figure_bytes[s], coins[s], coin_bytes[s], NO_TRIPLES, state[s], sizeof state[s], m, m_len, o,
                          o_len);
}

static size_t size(unsigned seat, unsigned k, unsigned what)
{
    uint64_t answer = pool_seat_size(plan, plan_len, (uint16_t)seat, (uint16_t)k, (uint16_t)what);
    expect("a size is not refused", POOL_REFUSAL(answer), 0, 0);
    return (size_t)POOL_VALUE(answer);
}

/* Every seat's call number k; what each sent to each is its mail of the next call. */
static void step(unsigned k, uint8_t written[SEATS][LONGEST])
{
    uint8_t next[SEATS][LONGEST];
    size_t next_bytes[SEATS] = {0};
    for (unsigned seat = 1; seat <= SEATS; seat++) {
        size_t out_len = size(seat, k, POOL_SEAT_OUT), at = 0;
        uint8_t *o = written[seat - 1];
        expect("no call of a run is refused", call(seat, mail[seat - 1], mail_bytes[seat - 1], o, out_len), 0, 0);
        for (unsigned to = 1; k + 1 < CALLS && to <= SEATS; to++) {
            size_t len = k + 2 < CALLS ? out_len / SEATS : size(to, k + 1, POOL_SEAT_MAIL) / SEATS;
            memcpy(next[to - 1] + next_bytes[to - 1], o + at, len);
            next_bytes[to - 1] += len;
            at += len;
        }
    }
    memcpy(mail, next, sizeof mail);
    memcpy(mail_bytes, next_bytes, sizeof mail_bytes);
}

static void expect_mail(const char *what, unsigned seat, const unsigned *want, unsigned count)
{
    uint8_t bytes[LONGEST];
    put_list(bytes, want, count);
    if (mail_bytes[seat - 1] != BYTES(count)) {
        failed++;
        printf("%s: %zu bytes of mail\n", what, mail_bytes[seat - 1]);
        return;
    }
    expect_bytes(what, mail[seat - 1], bytes, BYTES(count));
}

/* The whole run: the rounds for seat 3, and its result. */
static void run(void)
{
    uint8_t written[SEATS][LONGEST];
    memset(state, 0, sizeof state);
    memset(mail_bytes, 0, sizeof mail_bytes);
    step(0, written);
    expect_mail("round 0", 3, (const unsigned[]){10, 3}, 2);
    step(1, written);
    expect_mail("round 1", 3, (const unsigned[]){7, 4, 7}, 3);
    step(2, written);
    expect_mail("round 2", 3, (const unsigned[]){10, 7, 4}, 3);
    uint8_t before[BYTES(GATES + 1)], o[BYTES(1)], kept[BYTES(1)], off[BYTES(3)], result[BYTES(1)];
    put_list(off, (const unsigned[]){10, 7, 5}, 3);
    memcpy(before, state[2], sizeof before);
    memset(o, 9, sizeof o);
    memset(kept, 9, sizeof kept);
    expect("seat 3's share off the polynomial", call(3, off, sizeof off, o, sizeof o), 20, 3);
    expect_bytes("a refused call keeps the state", state[2], before, sizeof before);
    expect_bytes("a refused call keeps the buffer", o, kept, sizeof o);
    step(3, written);
    put(result, 2);
    expect_bytes("the result", written[2], result, sizeof result);
    for (unsigned seat = 1; seat <= SEATS; seat++)
        expect("a finished seat", call(seat, mail[0], 0, o, 0), 16, 0);
}

/* Fresh seats and one damage at a time. */
static void refusals(void)
{
    static uint8_t o[LONGEST], none[1];
    uint8_t bad[BYTES(2)], fresh[BYTES(GATES + 1)] = {0};
    size_t out_len = size(1, 0, POOL_SEAT_OUT);
    put_list(bad, (const unsigned[]){11, 1}, 2);
    memset(state, 0, sizeof state);
    expect("seat 0", pool_seat_call(plan, plan_len, 0, none, 0, none, 0, NO_TRIPLES, state[0], sizeof fresh, none, 0, o, 0), 9, 0);
    expect("seat 4", pool_seat_call(plan, plan_len, 4, none, 0, none, 0, NO_TRIPLES, state[0], sizeof fresh, none, 0, o, 0), 9, 0);
    size_t one = BYTES(1), two = BYTES(2);
    for (size_t over = 1; over < BYTES(1); over++) {
        expect("bytes left over in figures", pool_seat_call(plan, plan_len, 1, bad, over, coins[0], two, NO_TRIPLES, state[0], sizeof fresh, none, 0, o, out_len), 10, 0);
        expect("and after them", pool_seat_call(plan, plan_len, 1, bad, one + over, coins[0], two, NO_TRIPLES, state[0], sizeof fresh, none, 0, o, out_len), 10, 0);
    }
    expect("a figure of p", pool_seat_call(plan, plan_len, 1, bad, one, coins[0], two, NO_TRIPLES, state[0], sizeof fresh, none, 0, o, out_len), 11, 0);
    expect("too few coins", pool_seat_call(plan, plan_len, 1, figures[0], one, coins[0], one, NO_TRIPLES, state[0], sizeof fresh, none, 0, o, out_len), 12, 0);
    expect("a coin of p", pool_seat_call(plan, plan_len, 1, figures[0], one, bad, two, NO_TRIPLES, state[0], sizeof fresh, none, 0, o, out_len), 13, 0);
    expect("a short state", pool_seat_call(plan, plan_len, 1, figures[0], one, coins[0], two, NO_TRIPLES, state[0], sizeof fresh - 1, none, 0, o, out_len), 14, 0);
    put(state[0] + BYTES(1), 11);
    expect("a share of p", call(1, none, 0, o, out_len), 15, 0);
    put(state[0] + BYTES(1), 0);
    put(state[0], CALLS + 1);
    expect("a call number above M + 3", call(1, none, 0, o, out_len), 15, 0);
    put(state[0], 0);
    expect("mail for call 0", call(1, bad, one, o, out_len), 17, 0);
    put(state[0], 1);
    expect("mail of p", call(1, bad, two, o, BYTES(SEATS)), 18, 0);
    put(state[0], 0);
    expect("a long buffer", call(1, none, 0, o, out_len + 1), 19, 0);
    expect_bytes("the state is as it was", state[0], fresh, sizeof fresh);
    expect_bytes("the buffer is as it was", o, (const uint8_t[LONGEST]){0}, LONGEST);
}

int main(void)
{
    plan_len = plan_k(plan);
    for (unsigned s = 0; s < SEATS; s++) {
        put_list(figures[s], figure_numbers[s], 1);
        put_list(coins[s], coin_numbers[s], 2);
    }
    expect("the calls of a seat", pool_calls(plan, plan_len) == (uint64_t)CALLS << 8 ? 0 : 255, 0, 0);
    run();
    refusals();
    printf("%d passed, %d failed\n", passed, failed);
    return failed != 0;
}
