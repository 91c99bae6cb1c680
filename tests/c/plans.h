/* Plans for the C tests, numbers at random, and a count of what held. */
#ifndef PLANS_H
#define PLANS_H

#include <stdio.h>
#include <string.h>

#include "pool.h"

static int passed, failed;

/* An answer without a value: a refusal and its place, or 0 and 0. */
static inline void expect(const char *what, uint64_t answer, unsigned number, uint32_t place)
{
    if (answer >> 40 == 0 && POOL_REFUSAL(answer) == number && POOL_PLACE(answer) == place) {
        passed++;
    } else {
        failed++;
        printf("%s: number %u place %u, not %u %u\n", what, POOL_REFUSAL(answer), POOL_PLACE(answer), number, place);
    }
}

static inline void hold(const char *what, int held)
{
    expect(what, held ? 0 : 255, 0, 0);
}

static inline void expect_bytes(const char *what, const uint8_t *got, const uint8_t *want, size_t len)
{
    if (memcmp(got, want, len) == 0) {
        passed++;
    } else {
        failed++;
        printf("%s: other bytes\n", what);
    }
}

static inline void put_bytes(uint8_t *at, unsigned width, unsigned v)
{
    for (unsigned i = 0; i < width; i++)
        at[i] = (uint8_t)(v >> (8 * i));
}

static inline unsigned get_bytes(const uint8_t *at, unsigned width)
{
    unsigned v = 0;
    while (width-- > 0)
        v = v << 8 | at[width];
    return v;
}

/* A list's numbers: the bytes of so many, one written, one read, and a whole list written. */
#define BYTES(count) (POOL_NUMBER_BYTES * (count))

static inline void put(uint8_t *at, unsigned v)
{
    put_bytes(at, POOL_NUMBER_BYTES, v);
}

static inline unsigned get(const uint8_t *at)
{
    return get_bytes(at, POOL_NUMBER_BYTES);
}

static inline void put_list(uint8_t *at, const unsigned *numbers, unsigned count)
{
    for (unsigned i = 0; i < count; i++)
        put(at + BYTES(i), numbers[i]);
}

/* The triples of a plan that spends none: a place that a call may be lent, and no byte. */
static inline uint8_t *nothing(void)
{
    static uint8_t place[1];
    return place;
}

#define NO_TRIPLES nothing(), 0

/* A number below bound, the next of a fixed row. */
static inline unsigned below(unsigned bound)
{
    static uint64_t row = 88172645463325252u;
    row ^= row << 13;
    row ^= row >> 7;
    row ^= row << 17;
    return (unsigned)((row >> 11) % bound);
}

/* The versions of a plan file: the bytes of a number of the file, and of its contents. A version with room for a sixth number in its contents has
 * points, one for each party, after the outs. From version MASKING on products are masked and cut off in three rounds; in the versions before they are
 * dealt anew in one. */
enum { VERSIONS = 4, MASKING = 4 };

struct version {
    unsigned field, head;
};

static const struct version versions[VERSIONS + 1] = {[1] = {2, 18}, [2] = {2, 20}, [3] = {4, 32}, [4] = {4, 32}};

/* The largest plan file that passes, and the largest prime of all versions. */
#define MOST_PLAN (32 + 10 * 1024 + 3 * 64 + 4 * 15)
#define MOST_PRIME 2147483647u

/* The numbers of a plan's contents, in order from byte 8 on: one written, and one read. */
enum { PRIME, GATES_AT, GATE_COUNT, OUTS_AT, OUT_COUNT, POINTS_AT };

static inline struct version version_of(const uint8_t *plan)
{
    return versions[plan[4]];
}

static inline void put_field(uint8_t *plan, unsigned k, unsigned v)
{
    unsigned width = version_of(plan).field;
    put_bytes(plan + 8 + width * k, width, v);
}

static inline unsigned get_field(const uint8_t *plan, unsigned k)
{
    unsigned width = version_of(plan).field;
    return get_bytes(plan + 8 + width * k, width);
}

static inline int has_points(struct version v)
{
    return v.head == 8 + 6 * v.field;
}

static inline void point(uint8_t *plan, unsigned i, unsigned x)
{
    unsigned width = version_of(plan).field;
    put_bytes(plan + get_field(plan, POINTS_AT) + width * i, width, x);
}

/* A party's point, the party counted from 0. */
static inline unsigned point_of(const uint8_t *plan, unsigned i)
{
    unsigned width = version_of(plan).field;
    return has_points(version_of(plan)) ? get_bytes(plan + get_field(plan, POINTS_AT) + width * i, width) : i + 1;
}

/* The contents of a plan with G gates and O outs, with points 1 to n in a version that has points. Answers the plan's size. */
static inline size_t contents_in(unsigned version, uint8_t *plan, unsigned n, unsigned t, unsigned p, unsigned gates, unsigned outs)
{
    struct version v = versions[version];
    unsigned outs_at = v.head + (2 + 2 * v.field) * gates, points_at = outs_at + 3 * outs;
    memcpy(plan, "POOL", 4);
    plan[4] = (uint8_t)version;
    plan[5] = (uint8_t)n;
    plan[6] = (uint8_t)t;
    plan[7] = 0;
    put_field(plan, PRIME, p);
    put_field(plan, GATES_AT, v.head);
    put_field(plan, GATE_COUNT, gates);
    put_field(plan, OUTS_AT, outs_at);
    put_field(plan, OUT_COUNT, outs);
    if (!has_points(v))
        return points_at;
    put_field(plan, POINTS_AT, points_at);
    for (unsigned i = 0; i < n; i++)
        point(plan, i, i + 1);
    return points_at + v.field * n;
}

static inline size_t contents(uint8_t *plan, unsigned n, unsigned t, unsigned p, unsigned gates, unsigned outs)
{
    return contents_in(1, plan, n, t, p, gates, outs);
}

/* The version that a plan over this prime needs. */
static inline unsigned version_for(unsigned p)
{
    return p > 65535 ? 3 : 1;
}

static inline uint8_t *gate_place(const uint8_t *plan, unsigned g)
{
    struct version v = version_of(plan);
    return (uint8_t *)(uintptr_t)plan + v.head + (2 + 2 * v.field) * g;
}

static inline void gate(uint8_t *plan, unsigned g, unsigned kind, unsigned a, unsigned b)
{
    unsigned width = version_of(plan).field;
    uint8_t *at = gate_place(plan, g);
    at[0] = (uint8_t)kind;
    at[1] = 0;
    put_bytes(at + 2, width, a);
    put_bytes(at + 2 + width, width, b);
}

/* A gate of a kind, any else that the kind leaves open. */
static inline void any_gate(uint8_t *plan, unsigned g, unsigned kind, unsigned n, unsigned p)
{
    unsigned wires = kind > 1 && kind != 6, constant = kind == 3 || kind == 4;
    gate(plan, g, kind, kind == 1 ? 1 + below(n) : wires ? below(g) : 0, constant ? below(p) : wires ? below(g) : 0);
}

static inline void out(uint8_t *plan, unsigned gates, unsigned o, unsigned party, unsigned wire)
{
    uint8_t *at = gate_place(plan, gates) + 3 * o;
    at[0] = (uint8_t)party;
    put_bytes(at + 1, 2, wire);
}

/* The same plan as a file of a version, with these points where it has points. Answers its size. */
static inline size_t in_version(unsigned version, uint8_t *to, const uint8_t *plan, const unsigned *points)
{
    unsigned gates = get_field(plan, GATE_COUNT), outs = get_field(plan, OUT_COUNT), width = version_of(plan).field;
    size_t len = contents_in(version, to, plan[5], plan[6], get_field(plan, PRIME), gates, outs);
    for (unsigned g = 0; g < gates; g++) {
        const uint8_t *from = gate_place(plan, g);
        gate(to, g, from[0], get_bytes(from + 2, width), get_bytes(from + 2 + width, width));
    }
    for (unsigned o = 0; o < outs; o++) {
        const uint8_t *from = gate_place(plan, gates) + 3 * o;
        out(to, gates, o, from[0], get_bytes(from + 1, 2));
    }
    for (unsigned i = 0; has_points(versions[version]) && i < plan[5]; i++)
        point(to, i, points[i]);
    return len;
}

static inline void first_points(unsigned *points)
{
    for (unsigned i = 0; i < 15; i++)
        points[i] = i + 1;
}

/* Distinct points from 1 to p - 1. */
static inline void any_points(unsigned *points, unsigned n, unsigned p)
{
    for (unsigned i = 0; i < n;) {
        unsigned j = 0;
        points[i] = 1 + below(p - 1);
        while (j < i && points[j] != points[i])
            j++;
        i += j == i;
    }
}

/* Plan K: n=3, t=1, p=11; input 1, input 2, multiply 0 1, add 2 0; out to party 3 of wire 3. */
static inline size_t plan_k(uint8_t *plan)
{
    size_t len = contents(plan, 3, 1, 11, 4, 1);
    gate(plan, 0, 1, 1, 0);
    gate(plan, 1, 1, 2, 0);
    gate(plan, 2, 5, 0, 1);
    gate(plan, 3, 2, 2, 0);
    out(plan, 4, 0, 3, 3);
    return len;
}

/* The same with its product by a triple. */
static inline size_t plan_spending(uint8_t *plan)
{
    size_t len = plan_k(plan);
    gate(plan, 2, 7, 0, 1);
    return len;
}

/* How many triples a plan spends. */
static inline unsigned spends_of(const uint8_t *plan)
{
    unsigned count = 0;
    for (unsigned g = 0; g < get_field(plan, GATE_COUNT); g++)
        count += gate_place(plan, g)[0] == 7;
    return count;
}

/* The plan that prepares the triples of another one, in a version that holds it: for each gate of kind 7 two random wires and their product, and no outs. */
static inline size_t preparing_in(unsigned version, uint8_t *to, const uint8_t *plan)
{
    unsigned count = spends_of(plan), n = plan[5];
    size_t len = contents_in(version, to, n, plan[6], get_field(plan, PRIME), 3 * count, 0);
    for (unsigned k = 0; k < count; k++) {
        gate(to, 3 * k, 6, 0, 0);
        gate(to, 3 * k + 1, 6, 0, 0);
        gate(to, 3 * k + 2, 5, 3 * k, 3 * k + 1);
    }
    for (unsigned i = 0; has_points(version_of(to)) && has_points(version_of(plan)) && i < n; i++)
        point(to, i, point_of(plan, i));
    return len;
}

/* All triples of a plan, such as a preparing run makes, party by party: for each gate shares of a, b and ab, each of them by a polynomial of degree t at
 * random. Answers their bytes. */
static inline size_t triples_for(const uint8_t *plan, uint8_t *triples)
{
    unsigned n = plan[5], t = plan[6], own = 3 * spends_of(plan), p = get_field(plan, PRIME);
    uint64_t factor[2] = {0};
    for (unsigned k = 0; k < own; k++) {
        uint64_t coefficients[15] = {k % 3 == 2 ? factor[0] * factor[1] % p : below(p)};
        for (unsigned j = 1; j <= t; j++)
            coefficients[j] = below(p);
        if (k % 3 < 2)
            factor[k % 3] = coefficients[0];
        for (unsigned i = 0; i < n; i++) {
            uint64_t share = 0;
            for (unsigned j = t + 1; j-- > 0;)
                share = (share * point_of(plan, i) + coefficients[j]) % p;
            put(triples + BYTES(own * i + k), (unsigned)share);
        }
    }
    return BYTES((size_t)own * n);
}

/* K with a random wire for party 2's input. */
static inline size_t plan_drawn(uint8_t *plan)
{
    size_t len = plan_k(plan);
    gate(plan, 1, 6, 0, 0);
    return len;
}

#endif
