/* Refusal 20 tells who is off the line: every seat above t + 1 made wrong in turn, alone and with others after it, in each out. */
#include "plans.h"

enum { MOST = 15, GATES = 1, OUTS = 5, OWN = 3, LAST_CALL = 2 };

static uint8_t plan[128];
static size_t plan_len;
static unsigned n, t, p;
static unsigned shares[OWN][MOST];
static uint32_t seed = 1;

static unsigned draw(unsigned below)
{
    seed = seed * 1664525u + 1013904223u;
    return (seed >> 8) % below;
}

/* An input of seat 1, and five outs of it: the first, third and fifth for seat n, the others for seat 1. */
static void make_plan(void)
{
    plan_len = contents_in(version_for(p), plan, n, t, p, GATES, OUTS);
    gate(plan, 0, 1, 1, 0);
    for (unsigned o = 0; o < OUTS; o++)
        out(plan, GATES, o, o % 2 ? 1 : n, 0);
}

/* Each own out's shares, on a polynomial of degree t or less; its value at 0 is the out's. */
static void deal(unsigned value[OWN])
{
    for (unsigned j = 0; j < OWN; j++) {
        unsigned coefficients[MOST];
        for (unsigned k = 0; k <= t; k++)
            coefficients[k] = draw(p);
        value[j] = coefficients[0];
        for (unsigned x = 1; x <= n; x++) {
            uint64_t y = 0;
            for (unsigned k = t + 1; k-- > 0;)
                y = (y * x + coefficients[k]) % p;
            shares[j][x - 1] = (unsigned)y;
        }
    }
}

static void spoil(unsigned j, unsigned seat)
{
    shares[j][seat - 1] = (shares[j][seat - 1] + 1 + draw(p - 1)) % p;
}

/* Seat n's last call with these shares; a refused one keeps its buffers. */
static void last_call(const char *what, unsigned number, unsigned place, const unsigned value[OWN])
{
    uint8_t state[BYTES(1 + GATES)], before[BYTES(1 + GATES)], mail[BYTES(OWN * MOST)], o[BYTES(OWN)], kept[BYTES(OWN)], want[BYTES(OWN)], none[1];
    put(state, LAST_CALL);
    put(state + BYTES(1), draw(p));
    memcpy(before, state, sizeof state);
    memset(o, 9, sizeof o);
    memcpy(kept, o, sizeof o);
    for (unsigned i = 0; i < n; i++)
        for (unsigned j = 0; j < OWN; j++)
            put(mail + BYTES(OWN * i + j), shares[j][i]);
    expect(what, pool_seat_call(plan, plan_len, (uint16_t)n, none, 0, none, 0, NO_TRIPLES, state, sizeof state, mail, BYTES(OWN * n), o, sizeof o), number, place);
    put_list(want, value, OWN);
    expect_bytes("the buffer", o, number ? kept : want, sizeof o);
    put(before, number ? LAST_CALL : LAST_CALL + 1);
    expect_bytes("the state", state, before, sizeof state);
}

/* Seat `seat` wrong in own out j. */
static void wrong(unsigned j, unsigned seat)
{
    unsigned value[OWN];
    deal(value);
    spoil(j, seat);
    last_call("a seat alone", 20, seat, value);
    for (unsigned after = seat + 1; after <= n; after++)
        spoil(j, after);
    last_call("with all seats after it", 20, seat, value);
    deal(value);
    spoil(j, seat);
    if (seat < n)
        spoil(j, seat + 1 + draw(n - seat));
    last_call("with one seat after it", 20, seat, value);
    for (unsigned later = j + 1; later < OWN; later++)
        spoil(later, t + 2);
    last_call("with later outs that break earlier", 20, seat, value);
}

static void plan_of(unsigned seats, unsigned threshold, unsigned prime)
{
    unsigned value[OWN];
    n = seats;
    t = threshold;
    p = prime;
    make_plan();
    for (unsigned j = 0; j < OWN; j++) {
        deal(value);
        last_call("nobody", 0, 0, value);
        for (unsigned seat = t + 2; seat <= n; seat++)
            wrong(j, seat);
        for (unsigned seat = 1; seat <= t + 1; seat++) {
            deal(value);
            spoil(j, seat);
            last_call("one of seats 1 to t + 1 tells the next", 20, t + 2, value);
        }
    }
}

int main(void)
{
    static const unsigned plans[][3] = {{2, 0, 3}, {3, 1, 5}, {3, 0, 65521}, {4, 1, 5}, {5, 1, 7}, {5, 2, 65521}, {7, 3, 11},
                                        {9, 2, 65521}, {15, 0, 17}, {15, 1, 17}, {15, 4, 251}, {15, 7, 17}, {15, 7, 65521},
                                        {3, 1, 65537}, {9, 2, 2147483629}, {15, 0, MOST_PRIME}, {15, 7, MOST_PRIME}};
    for (size_t i = 0; i < sizeof plans / sizeof *plans; i++)
        plan_of(plans[i][0], plans[i][1], plans[i][2]);
    printf("%d passed, %d failed\n", passed, failed);
    return failed != 0;
}
