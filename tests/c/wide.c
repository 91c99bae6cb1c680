/* Plans over primes to 2^31 - 1: which primes pass, version 3's layout at its edges, the time of a check, and runs on the bench and by seats whose
 * results are C's own arithmetic. */
#include <time.h>

#include "made.h"
#include "runs.h"

/* ---- primes */

/* Numbers about the edges, and whether they are primes up to 2^31 - 1. 46,337 is the largest prime below the root of 2^31. */
static const struct {
    unsigned p, passes;
} edges[] = {
    {65519, 1},      {65521, 1},      {65535, 0},      {65536, 0},      {65537, 1},       {65539, 1},       {65537u * 32749, 0},
    {46337u * 46337, 0}, {46327u * 46337, 0}, {2147483629, 1}, {2147483646, 0}, {2147483647, 1}, {2147483648u, 0}, {2147483649u, 0},
    {2147483659u, 0}, {4294967291u, 0}, {4294967295u, 0}, {0, 0},       {1, 0},           {65536u + 11, 0}, {(1u << 24) + 43, 1},
};

enum { EDGES = sizeof edges / sizeof *edges };

static void primes(void)
{
    static const char sheet[] = "a1 + b2*c3", circuit[] = "0 1\n1 1\n1 1\n";
    for (unsigned k = 0; k < EDGES; k++) {
        unsigned p = edges[k].p, number = edges[k].passes ? 0 : 5;
        size_t head = p < 65536 ? 18 : 32, gate_len = p < 65536 ? 6 : 10, points = p < 65536 ? 0 : 12;
        uint8_t k3[128], first[64];
        plan_k(first);
        size_t len = in_version(3, k3, first, (const unsigned[]){1, 2, 3});
        put_field(k3, PRIME, p);
        expect("K over this prime", pool_plan_check(k3, len), number, 0);
        uint64_t size = pool_sheet_size((const uint8_t *)sheet, sizeof sheet - 1, 3, 1, p, 2);
        expect("a sheet over this prime", POOL_REFUSAL(size), number, 0);
        hold("its size", number || POOL_VALUE(size) == head + 5 * gate_len + 3 + points);
        size = pool_import_size((const uint8_t *)circuit, sizeof circuit - 1, 3, 1, p);
        expect("a circuit over this prime", POOL_REFUSAL(size), number, 0);
        hold("its size", number || POOL_VALUE(size) == head + gate_len + 3 + points);
    }
}

/* ---- the layout of version 3 */

/* K over 2^31 - 1. */
static size_t wide_k(uint8_t *to)
{
    uint8_t first[64];
    plan_k(first);
    size_t len = in_version(3, to, first, (const unsigned[]){1, 2, 3});
    put_field(to, PRIME, MOST_PRIME);
    return len;
}

/* So many bytes of K set to a number. */
static void changed(const char *what, size_t at, unsigned width, unsigned v, unsigned number, uint32_t place)
{
    uint8_t k[128];
    size_t len = wide_k(k);
    put_bytes(k + at, width, v);
    expect(what, pool_plan_check(k, len), number, place);
}

/* Every byte of every number counts. */
static void layout(void)
{
    changed("K", 7, 1, 0, 0, 0);
    changed("version 4 has this layout", 4, 1, 4, 0, 0);
    changed("version 5", 4, 1, 5, 2, 0);
    changed("version 0", 4, 1, 0, 2, 0);
    changed("byte 7", 7, 1, 1, 6, 0);
    changed("the gates' offset of version 2", 12, 4, 20, 6, 0);
    changed("the gates' offset's third byte", 12, 4, 32 + 65536, 6, 0);
    changed("G's third byte", 16, 4, 4 + 65536, 6, 0);
    changed("G's fourth byte", 16, 4, 4 + (1u << 24), 6, 0);
    changed("G with no room", 16, 4, 0xffffffff, 6, 0);
    changed("no gates", 16, 4, 0, 6, 0);
    changed("the outs' offset", 20, 4, 73, 6, 0);
    changed("the outs' offset's fourth byte", 20, 4, 72 + (1u << 31), 6, 0);
    changed("O's third byte", 24, 4, 1 + 65536, 6, 0);
    changed("no outs", 24, 4, 0, 6, 0);
    changed("the points' offset", 28, 4, 74, 6, 0);
    changed("the points' offset's third byte", 28, 4, 75 + 65536, 6, 0);
    changed("another kind", 42, 1, 9, 7, 1);
    changed("a gate's second byte", 43, 1, 1, 7, 1);
    changed("a seat's third byte", 44, 4, 2 + 65536, 7, 1);
    changed("an input's b", 48, 4, 1u << 31, 7, 1);
    changed("a's fourth byte", 54, 4, 1u << 24, 7, 2);
    changed("b's third byte", 58, 4, 1 + 65536, 7, 2);
    changed("a wire that is not yet made", 68, 4, 3, 7, 3);
    changed("an out of seat 4", 72, 1, 4, 8, 0);
    changed("an out's wire", 73, 2, 4, 8, 0);
    changed("an out's second byte", 73, 2, 3 + 256, 8, 0);
    changed("the largest point", 75, 4, MOST_PRIME - 1, 0, 0);
    changed("a point of p", 75, 4, MOST_PRIME, 26, 0);
    changed("a point of 2^32 - 1", 83, 4, 0xffffffff, 26, 0);
    changed("a point of 0", 79, 4, 0, 26, 0);
    changed("a point twice", 83, 4, 1, 26, 0);
    changed("points alike in two bytes", 83, 4, 1 + 65536, 0, 0);
    changed("points alike in three bytes", 83, 4, 2 + (1u << 24), 0, 0);
    changed("2t is n + 1", 6, 1, 2, 25, 0);
}

static void constants(void)
{
    static const unsigned constant[] = {0, 65535, 65536, MOST_PRIME - 1, MOST_PRIME, 1u << 31, 0xffffffff};
    for (unsigned k = 0; k < sizeof constant / sizeof *constant; k++)
        for (unsigned kind = 3; kind <= 4; kind++) {
            uint8_t plan3[128];
            size_t len = wide_k(plan3), passes = constant[k] < MOST_PRIME;
            gate(plan3, 3, kind, 2, constant[k]);
            expect("a constant", pool_plan_check(plan3, len), passes ? 0 : 7, passes ? 0 : 3);
        }
}

/* Under 18 bytes 1; from 18 to 31 the contents are cut, which is 6 after 3, 4 and 5; then 6 up to the last byte. */
static void cut(void)
{
    uint8_t k[128];
    size_t len = wide_k(k);
    for (size_t at = 0; at < len; at++) {
        wide_k(k);
        expect("K cut short", pool_plan_check(k, at), at < 18 ? 1 : 6, 0);
        put_field(k, PRIME, MOST_PRIME - 1);
        expect("5 before the 6 of a cut plan", pool_plan_check(k, at), at < 18 ? 1 : 5, 0);
        k[6] = 3;
        expect("4 before 5", pool_plan_check(k, at), at < 18 ? 1 : 4, 0);
        k[5] = 16;
        expect("3 before 4", pool_plan_check(k, at), at < 18 ? 1 : 3, 0);
        k[4] = 5;
        expect("2 before 3", pool_plan_check(k, at), at < 18 ? 1 : 2, 0);
    }
    wide_k(k);
    expect("K with a byte more", pool_plan_check(k, len + 1), 6, 0);
    expect("K with a point more", pool_plan_check(k, len + 4), 6, 0);
}

/* ---- the largest plans, and time */

static uint8_t large[MOST_PLAN + 64];

/* Inputs, then gates of every kind. */
static size_t large_plan(unsigned gates, unsigned outs)
{
    size_t len = contents_in(3, large, 15, 7, MOST_PRIME, gates, outs);
    for (unsigned g = 0; g < gates; g++)
        gate(large, g, g < 15 ? 1 : 2 + (g + 2) % 4, g < 15 ? g + 1 : g - 1, g < 15 ? 0 : g % 4 == 3 || g % 4 == 0 ? MOST_PRIME - g : g / 2);
    for (unsigned o = 0; o < outs; o++)
        out(large, gates, o, 1 + o % 15, gates - 1 - o);
    return len;
}

static void bounds(void)
{
    size_t len = large_plan(1024, 64);
    hold("the largest file's size", len == MOST_PLAN);
    expect("1,024 gates and 64 outs", pool_plan_check(large, len), 0, 0);
    gate(large, 1023, 2, 1023, 0);
    expect("the last gate reads itself", pool_plan_check(large, len), 7, 1023);
    len = large_plan(1024, 64);
    out(large, 1024, 63, 1, 1024);
    expect("the last out's wire", pool_plan_check(large, len), 8, 63);
    len = large_plan(1024, 64);
    point(large, 14, 7);
    expect("the last point", pool_plan_check(large, len), 26, 0);
    expect("1,025 gates", pool_plan_check(large, large_plan(1025, 1)), 6, 0);
    expect("65 outs", pool_plan_check(large, large_plan(1000, 65)), 6, 0);
}

/* The shortest of many checks, in microseconds: other work on the machine makes some longer. */
static double time_of_check(size_t len)
{
    double shortest = 1e9;
    for (unsigned i = 0; i < 200; i++) {
        struct timespec from, to;
        clock_gettime(CLOCK_MONOTONIC, &from);
        pool_plan_check(large, len);
        clock_gettime(CLOCK_MONOTONIC, &to);
        double micros = (double)(to.tv_sec - from.tv_sec) * 1e6 + (double)(to.tv_nsec - from.tv_nsec) / 1e3;
        shortest = micros < shortest ? micros : shortest;
    }
    return shortest;
}

static void times(void)
{
    double largest = time_of_check(large_plan(1024, 64)), least = time_of_check(large_plan(16, 1));
    printf("a plan check at p = 2^31 - 1: %.0f microseconds with 1,024 gates, %.0f with 16\n", largest, least);
    hold("a plan check is under a millisecond", largest < 1000 && least < 1000);
}

/* ---- runs */

/* The plan's own arithmetic. */
static void values_of(const struct run *r, uint64_t *value)
{
    unsigned p = get_field(r->plan, PRIME), figures = 0, draws;
    for (unsigned g = 0; g < get_field(r->plan, GATE_COUNT); g++) {
        const uint8_t *at = gate_place(r->plan, g);
        unsigned a = get_bytes(at + 2, 4), b = get_bytes(at + 6, 4);
        switch (at[0]) {
        case 1:
            value[g] = get(r->figures + BYTES(figures++));
            break;
        case 2:
            value[g] = (value[a] + value[b]) % p;
            break;
        case 3:
            value[g] = value[a] * b % p;
            break;
        case 4:
            value[g] = (value[a] + b) % p;
            break;
        case 6:
            for (value[g] = 0, draws = r->plan[5]; draws > 0; draws--)
                value[g] = (value[g] + get(r->figures + BYTES(figures++))) % p;
            break;
        default:
            value[g] = value[a] * value[b] % p;
        }
    }
}

/* The results of seats apart, in the order of the plan's outs, are these values; so are the last numbers of each seat's view. */
static void right(const struct run *r, const uint64_t *value)
{
    static struct seats s;
    static uint8_t view[MOST_VIEW];
    unsigned had[15] = {0}, outs = get_field(r->plan, OUT_COUNT), wrong = 0;
    apart(r, &s);
    for (unsigned o = 0; o < outs; o++) {
        const uint8_t *at = r->plan + get_field(r->plan, OUTS_AT) + 3 * o;
        unsigned seat = at[0] - 1u;
        size_t results = s.out[s.calls - 1][seat], view_len = run_bytes(r, 1u << seat, POOL_RUN_VIEW);
        wrong += get(s.written[seat] + BYTES(had[seat])) != value[get_bytes(at + 1, 2)];
        wrong += POOL_REFUSAL(bench(r, 1u << seat, view)) != 0;
        wrong += get(view + view_len - results + BYTES(had[seat]++)) != value[get_bytes(at + 1, 2)];
    }
    expect("the results are the plan's own arithmetic", wrong, 0, 0);
}

/* Another figure for the last input: where this is matched, the matched run has the same view. Answers whether it is. */
static unsigned matched(const struct run *r)
{
    static struct run second;
    static uint8_t view[2][MOST_VIEW];
    uint16_t set = any_set(r->plan);
    second = *r;
    if (r->figures_len)
        put(second.figures + r->figures_len - BYTES(1), below(get_field(r->plan, PRIME)));
    if (pool_match(r->plan, r->plan_len, set, r->figures, r->figures_len, second.figures, r->figures_len, r->coins, r->coins_len, second.coins, r->coins_len))
        return 0;
    bench(r, set, view[0]);
    expect("the matched run is not refused", POOL_REFUSAL(bench(&second, set, view[1])), 0, 0);
    expect_bytes("the matched run's view", view[0], view[1], run_bytes(r, set, POOL_RUN_VIEW));
    return 1;
}

static void many_plans(unsigned count)
{
    static const unsigned primes[] = {65537, 65539, 16777259, 1073741827, 2147483629, MOST_PRIME, MOST_PRIME};
    static struct run r;
    unsigned points[15], matches = 0;
    for (unsigned k = 0; k < count; k++) {
        uint64_t value[MOST_GATES];
        unsigned p = primes[below(7)];
        do
            any_plan(&r, 3 + k % 2, p);
        while (r.plan[6] == 0);
        any_points(points, r.plan[5], p);
        for (unsigned i = 0; i < r.plan[5]; i++)
            point(r.plan, i, points[i]);
        any_triples(&r);
        values_of(&r, value);
        right(&r, value);
        matches += matched(&r);
    }
    hold("many runs are matched", matches > count / 4);
}

/* Figures and coins at p, and beyond. */
static void lists(void)
{
    static const unsigned over[] = {MOST_PRIME, 1u << 31, 0xffffffff};
    uint8_t k[128], figures[BYTES(2)] = {0}, coins[BYTES(5)] = {0}, view[BYTES(10)];
    size_t len = wide_k(k);
    put(figures, MOST_PRIME - 1);
    put(coins, MOST_PRIME - 1);
    expect("numbers of p - 1", POOL_REFUSAL(pool_bench(k, len, 4, figures, sizeof figures, coins, sizeof coins, NO_TRIPLES, view, sizeof view)), 0, 0);
    for (unsigned i = 0; i < 3; i++) {
        put(figures + BYTES(1), over[i]);
        expect("a figure not below p", pool_bench(k, len, 4, figures, sizeof figures, coins, sizeof coins, NO_TRIPLES, view, sizeof view), 11, 1);
        put(figures + BYTES(1), 0);
        put(coins + BYTES(4), over[i]);
        expect("a coin not below p", pool_bench(k, len, 4, figures, sizeof figures, coins, sizeof coins, NO_TRIPLES, view, sizeof view), 13, 4);
        put(coins + BYTES(4), 0);
    }
}

/* ---- money */

/* A sheet over 2^31 - 1, its figures, and its value: on the bench and by seats. */
static void pays(const char *sheet, const unsigned *figures, unsigned count, uint64_t value)
{
    static struct run r;
    static struct seats s;
    uint64_t size = pool_sheet_size((const uint8_t *)sheet, strlen(sheet), 3, 1, MOST_PRIME, 2);
    expect(sheet, POOL_REFUSAL(size), 0, 0);
    r.plan_len = (size_t)POOL_VALUE(size);
    fill_plan();
    expect(sheet, kept_plan(pool_sheet((const uint8_t *)sheet, strlen(sheet), 3, 1, MOST_PRIME, 2, plan, r.plan_len), r.plan_len), 0, 0);
    memcpy(r.plan, plan, r.plan_len);
    any_lists(&r);
    put_list(r.figures, figures, count);
    hold("a figure for each name", r.figures_len == BYTES(count));
    hold("the total on the bench", result_on_bench(r.plan_len, 2, r.figures, r.figures_len) == (int64_t)value);
    apart(&r, &s);
    hold("the total by seats", get(s.written[1]) == value);
}

static void money(void)
{
    const uint64_t p = MOST_PRIME, a = 81234599, b = 700000001, c = 999999937;
    const unsigned totals[] = {(unsigned)a, (unsigned)b, (unsigned)c}, small[] = {65521, 65537, 40000}, ends[] = {MOST_PRIME - 1, MOST_PRIME - 1, MOST_PRIME - 1};
    pays("a1 + b2 + c3", totals, 3, a + b + c);
    pays("a1 + b2 + c3", ends, 3, p - 3);
    pays("a1*b2", small, 2, 65521u * 65537ull % p);
    pays("a1*32767 + b2", small, 2, 65521u * 32767ull % p + 65537);
    pays("a1*b2*c3", totals, 3, a * b % p * c % p);
    pays("a1*b2*c3", ends, 3, p - 1);
    pays("(a1 + b2)*(c3 - 2147483646) - 1000000", totals, 3, (a + b) % p * (c + 1) % p - 1000000);
    pays("3*a1 + 12*b2 - c3*c3", totals, 3, (3 * a + 12 * b + p - c * c % p) % p);
}

int main(void)
{
    primes();
    layout();
    constants();
    cut();
    bounds();
    times();
    many_plans(150);
    lists();
    money();
    printf("%d passed, %d failed\n", passed, failed);
    return failed != 0;
}
