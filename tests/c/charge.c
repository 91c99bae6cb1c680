/* The line charge: the worked bills, prices at the limits, plans in which parties above 2t + 1 send less, lengths, random plans against a sort. */
#include <stdlib.h>
#include <time.h>

#include "plans.h"

enum { SEATS = 15, GATES = 1024, OUTS = 64, ROOM = BYTES(SEATS + 1) };

static uint8_t plan[MOST_PLAN], parts[ROOM];
static size_t plan_len;

static void expect_number(const char *what, uint64_t got, uint64_t want)
{
    if (got == want) {
        passed++;
    } else {
        failed++;
        printf("%s: %llu and not %llu\n", what, (unsigned long long)got, (unsigned long long)want);
    }
}

static uint64_t part(unsigned seat)
{
    return get(parts + BYTES(seat - 1));
}

/* The charge into so many bytes. A refused call writes nothing, and no call writes a byte more. */
static uint64_t charge(uint32_t price, size_t room)
{
    uint8_t before[ROOM];
    for (size_t i = 0; i < ROOM; i++)
        parts[i] = (uint8_t)below(256);
    memcpy(before, parts, ROOM);
    uint64_t answer = pool_charge(plan, plan_len, price, parts, room);
    if (POOL_REFUSAL(answer))
        expect_bytes("a refused charge writes nothing", parts, before, ROOM);
    else
        expect_bytes("a charge writes no byte more", parts + room, before + room, ROOM - room);
    return answer;
}

/* ---- by hand: what each party's calls write, and a sort */

static uint64_t sent_by(unsigned seat)
{
    uint64_t numbers = 0;
    unsigned calls = (unsigned)POOL_VALUE(pool_calls(plan, plan_len));
    for (unsigned call = 0; call + 1 < calls; call++)
        numbers += POOL_VALUE(pool_seat_size(plan, plan_len, (uint16_t)seat, (uint16_t)call, POOL_SEAT_OUT)) / POOL_NUMBER_BYTES;
    return numbers;
}

struct owed {
    unsigned seat;
    uint64_t cents, rest;
};

static int greater_first(const void *a, const void *b)
{
    const struct owed *x = a, *y = b;
    if (x->rest != y->rest)
        return x->rest > y->rest ? -1 : 1;
    return x->seat < y->seat ? -1 : 1;
}

static void sorted(const char *what, uint32_t price, const uint64_t *sent)
{
    unsigned n = plan[5];
    uint64_t all = 0;
    for (unsigned i = 0; i < n; i++)
        all += sent[i];
    uint64_t bill = (all * price + 999) / 1000, left = bill, sum = 0;
    struct owed owed[SEATS];
    for (unsigned i = 0; i < n; i++) {
        owed[i] = (struct owed){i + 1, bill * sent[i] / all, bill * sent[i] % all};
        left -= owed[i].cents;
    }
    qsort(owed, n, sizeof *owed, greater_first);
    for (unsigned i = 0; i < left; i++)
        owed[i].cents++;
    uint64_t answer = charge(price, BYTES(n));
    expect_number(what, POOL_REFUSAL(answer), 0);
    expect_number(what, POOL_VALUE(answer), bill);
    for (unsigned i = 0; i < n; i++) {
        expect_number(what, part(owed[i].seat), owed[i].cents);
        sum += part(i + 1);
    }
    expect_number("the parts add up to the bill", sum, bill);
}

static void by_calls(const char *what, uint32_t price)
{
    uint64_t sent[SEATS];
    for (unsigned i = 0; i < plan[5]; i++)
        sent[i] = sent_by(i + 1);
    sorted(what, price, sent);
}

/* ---- plans */

static void worked(void)
{
    static const uint32_t bills[][5] = {{1000000, 18000, 7000, 7000, 4000}, {277, 5, 2, 2, 1}, {278, 6, 3, 2, 1}, {0, 0, 0, 0, 0},
        {1, 1, 1, 0, 0}, {999, 18, 7, 7, 4}, {1000, 18, 7, 7, 4}, {55, 1, 1, 0, 0}, {56, 2, 1, 1, 0}};
    plan_len = plan_k(plan);
    for (unsigned k = 0; k < sizeof bills / sizeof *bills; k++) {
        uint64_t answer = charge(bills[k][0], BYTES(3));
        expect_number("the worked bills: no refusal", POOL_REFUSAL(answer), 0);
        expect_number("the worked bills: the bill", POOL_VALUE(answer), bills[k][1]);
        for (unsigned seat = 1; seat <= 3; seat++)
            expect_number("the worked bills: a part", part(seat), bills[k][1 + seat]);
    }
    expect_number("K's elements, seat 1", sent_by(1), 7);
    expect_number("K's elements, seat 3", sent_by(3), 4);
    uint8_t view[1], figures[BYTES(2)], coins[BYTES(5)];
    put_list(figures, (const unsigned[]){4, 5}, 2);
    put_list(coins, (const unsigned[]){2, 3, 1, 5, 7}, 5);
    uint64_t sent = POOL_VALUE(pool_bench(plan, plan_len, 0, figures, sizeof figures, coins, sizeof coins, NO_TRIPLES, view, 0));
    expect_number("what the bench counts", sent, sent_by(1) + sent_by(2) + sent_by(3));
}

static void refusals(void)
{
    plan_len = plan_k(plan);
    expect("a price over the limit", charge(1000001, BYTES(3)), 31, 0);
    expect("a price of 2^31", charge(1u << 31, BYTES(3)), 31, 0);
    expect("the highest number", charge(UINT32_MAX, BYTES(3)), 31, 0);
    expect("31 comes before 19", charge(1000001, BYTES(3) - 1), 31, 0);
    for (size_t room = 0; room <= ROOM; room++)
        if (room != BYTES(3))
            expect("another length", charge(278, room), 19, 0);
    plan[5] = 16;
    expect("a plan's own refusal comes first", charge(1000001, BYTES(3) - 1), 3, 0);
    plan_len = plan_k(plan);
    plan[4] = 9;
    expect("another version", charge(0, BYTES(3)), 2, 0);
    plan_len = plan_k(plan);
    gate(plan, 2, 5, 0, 2);
    expect("a gate's rule, with its place", charge(1000001, BYTES(3)), 7, 2);
    plan_len = plan_k(plan);
    out(plan, 4, 0, 4, 3);
    expect("an out's rule", charge(1000001, BYTES(3)), 8, 0);
    for (plan_len = 0; plan_len < plan_k(plan); plan_len++)
        expect("a plan cut off", charge(1000001, BYTES(3) - 1), plan_len < 18 ? 1 : 6, 0);
}

/* K among more parties: those above 2t + 1 deal no product. */
static void few_dealers(void)
{
    static const uint32_t prices[] = {0, 1, 33, 34, 500, 999, 1000, 1001, 999999, 1000000};
    for (unsigned n = 3; n <= 15; n++)
        for (unsigned t = 0; 2 * t < n; t++) {
            plan_len = plan_k(plan);
            plan[5] = (uint8_t)n;
            plan[6] = (uint8_t)t;
            put_field(plan, PRIME, 17);
            uint64_t sent[SEATS];
            for (unsigned i = 0; i < n; i++)
                sent[i] = (i < 2 ? n : 0) + (i < 2 * t + 1 ? n : 0) + 1;
            for (unsigned k = 0; k < sizeof prices / sizeof *prices; k++)
                sorted("parties above 2t + 1 send less", prices[k], sent);
        }
    plan_len = plan_k(plan);
    plan[5] = 5;
    charge(500, 20);
    expect_number("four equal remainders: the lowest has the cent", part(1) * 10000 + part(2) * 1000 + part(3) * 100 + part(4) * 10 + part(5), 66300);
}

/* A random wire costs each party a number for each of the parties. */
static void random_wires(void)
{
    for (unsigned n = 1; n <= 15; n++)
        for (unsigned t = 0; t < n; t++) {
            uint64_t sent[SEATS];
            plan_len = contents(plan, n, t, 17, 4, 2);
            gate(plan, 0, 6, 0, 0);
            gate(plan, 1, 1, n, 0);
            gate(plan, 2, 6, 0, 0);
            gate(plan, 3, 2, 2, 1);
            out(plan, 4, 0, 1, 3);
            out(plan, 4, 1, n, 0);
            for (unsigned i = 0; i < n; i++)
                sent[i] = 2 * n + (i == n - 1 ? n : 0) + 2;
            sorted("random wires", 1 + below(1000000), sent);
            by_calls("random wires, by calls", 999983);
        }
    static const unsigned parts_at[][4] = {{1000000, 10000, 7000, 7000}, {277, 3, 2, 2}, {1, 1, 0, 0}};
    plan_len = plan_drawn(plan);
    for (unsigned k = 0; k < sizeof parts_at / sizeof *parts_at; k++) {
        uint64_t answer = charge(parts_at[k][0], BYTES(3));
        expect_number("a random wire in K: the bill", answer, ((24 * (uint64_t)parts_at[k][0] + 999) / 1000) << 8);
        for (unsigned seat = 1; seat <= 3; seat++)
            expect_number("a random wire in K: a part", part(seat), parts_at[k][seat]);
    }
}

/* A gate that spends a triple costs each party two numbers for each of the parties. */
static void triples(void)
{
    for (unsigned n = 1; n <= 15; n++)
        for (unsigned t = 0; 2 * t < n; t++) {
            uint64_t sent[SEATS];
            plan_len = plan_spending(plan);
            plan[5] = (uint8_t)n;
            plan[6] = (uint8_t)t;
            put_field(plan, PRIME, 17);
            gate(plan, 1, 1, n, 0);
            out(plan, 4, 0, n, 3);
            for (unsigned i = 0; i < n; i++)
                sent[i] = ((i == 0) + (i == n - 1)) * n + 2 * n + 1;
            sorted("triples", 1 + below(1000000), sent);
            by_calls("triples, by calls", 999983);
        }
    plan_len = plan_spending(plan);
    expect_number("K's bill with a triple", charge(1000000, BYTES(3)), 27000 << 8);
    expect_number("K's parts with a triple", part(1) * 100000000 + part(2) * 10000 + part(3), 10000 * 100000000ull + 10000 * 10000 + 7000);
    uint8_t first[64];
    plan_len = preparing_in(1, plan, memcpy(first, plan, sizeof first));
    by_calls("a preparing plan", 999983);
}

/* In version 4 each party sends three numbers to each of the parties for a multiply, those above 2t + 1 too. */
static void masked(void)
{
    static const unsigned points[15] = {1, 2, 3, 4, 5, 6, 7, 8, 9, 10, 11, 12, 13, 14, 15};
    uint8_t first[64];
    for (unsigned n = 3; n <= 15; n++)
        for (unsigned t = 0; 2 * t < n; t++) {
            uint64_t sent[SEATS];
            plan_k(first);
            first[5] = (uint8_t)n;
            first[6] = (uint8_t)t;
            put_field(first, PRIME, 17);
            plan_len = in_version(MASKING, plan, first, points);
            for (unsigned i = 0; i < n; i++)
                sent[i] = (i < 2 ? n : 0) + 3 * n + 1;
            sorted("three rounds a multiply", 1 + below(1000000), sent);
            by_calls("three rounds a multiply, by calls", 999983);
        }
    plan_k(first);
    plan_len = in_version(MASKING, plan, first, points);
    expect_number("K's bill in version 4", charge(1000000, BYTES(3)), 36000 << 8);
    expect_number("K's parts in version 4", part(1) * 100000000 + part(2) * 10000 + part(3), 13000 * 100000000ull + 13000 * 10000 + 10000);
}

static void largest(unsigned n, unsigned t, unsigned inputs)
{
    plan_len = contents(plan, n, t, 65521, GATES, OUTS);
    for (unsigned g = 0; g < GATES; g++)
        gate(plan, g, g < inputs ? 1 : 5, g < inputs ? 1 + g % n : g - 1, g < inputs ? 0 : g / 2);
    for (unsigned o = 0; o < OUTS; o++)
        out(plan, GATES, o, 1, GATES - 1);
}

static void large(void)
{
    static const unsigned shapes[][3] = {{15, 7, 1}, {15, 1, 100}, {15, 0, 1024}, {1, 0, 1}, {14, 6, 13}, {3, 1, 500}};
    for (unsigned k = 0; k < sizeof shapes / sizeof *shapes; k++) {
        largest(shapes[k][0], shapes[k][1], shapes[k][2]);
        by_calls("the largest plans, the highest price", 1000000);
        by_calls("the largest plans, an odd price", 999983);
        by_calls("the largest plans, the lowest price", 1);
    }
    largest(15, 7, 1);
    enum { TIMES = 2000 };
    struct timespec from, to;
    clock_gettime(CLOCK_MONOTONIC, &from);
    for (unsigned i = 0; i < TIMES; i++)
        pool_charge(plan, plan_len, i, parts, 60);
    clock_gettime(CLOCK_MONOTONIC, &to);
    double micros = ((double)(to.tv_sec - from.tv_sec) * 1e9 + (double)(to.tv_nsec - from.tv_nsec)) / 1e3 / TIMES;
    printf("1,024 gates, 15 parties: %.1f microseconds a charge\n", micros);
}

static void random_plans(void)
{
    static const unsigned primes[] = {17, 257, 65521, 65537, MOST_PRIME};
    for (unsigned round = 0; round < 300; round++) {
        unsigned n = 1 + below(SEATS), t = below((n + 1) / 2), gates = 1 + below(30), outs = 1 + below(6);
        unsigned version = 1 + below(VERSIONS);
        plan_len = contents_in(version, plan, n, t, primes[below(version > 2 ? 5 : 3)], gates, outs);
        for (unsigned g = 0; g < gates; g++)
            if (g == 0 || below(2))
                any_gate(plan, g, below(3) ? 1 : 6, n, 2);
            else
                any_gate(plan, g, below(2) ? 5 + 2 * below(2) : 2, n, 2);
        for (unsigned o = 0; o < outs; o++)
            out(plan, gates, o, 1 + below(n), below(gates));
        by_calls("a random plan", below(3) ? below(5000) : below(1000001));
    }
}

int main(void)
{
    worked();
    refusals();
    few_dealers();
    random_wires();
    triples();
    masked();
    large();
    random_plans();
    printf("%d passed, %d failed\n", passed, failed);
    return failed != 0;
}
