/* Plans with points: in versions 2 and 3 with points 1 to n all is as in version 1, byte for byte; site codes as points; refusals 26 and 6. */
#include "runs.h"

/* The numbers that a seat gets. */
static size_t results_of(const uint8_t *plan, unsigned seat)
{
    size_t results = 0;
    for (unsigned o = 0; o < get_field(plan, OUT_COUNT); o++)
        results += plan[get_field(plan, OUTS_AT) + 3 * o] == seat;
    return BYTES(results);
}

/* Other points: the results stay. */
static void other_points(const struct run *r, const struct run *other)
{
    static uint8_t view[2][MOST_VIEW];
    for (unsigned seat = 1; seat <= r->plan[5] && r->plan[6] > 0; seat++) {
        unsigned set = 1u << (seat - 1);
        size_t len = run_bytes(r, set, POOL_RUN_VIEW), results = results_of(r->plan, seat);
        bench(r, set, view[0]);
        expect("other points are not refused", POOL_REFUSAL(bench(other, set, view[1])), 0, 0);
        expect_bytes("the results", view[0] + len - results, view[1] + len - results, results);
    }
}

/* Where other figures give a set the same, the matched run has the same view. */
static void matched_run(struct run *r)
{
    static uint8_t view[2][MOST_VIEW];
    static struct run second;
    uint16_t set = any_set(r->plan);
    second = *r;
    any_lists(&second);
    uint64_t answer = pool_match(r->plan, r->plan_len, set, r->figures, r->figures_len, second.figures, r->figures_len, r->coins, r->coins_len, second.coins, r->coins_len);
    if (POOL_REFUSAL(answer))
        return;
    bench(r, set, view[0]);
    expect("the matched run is not refused", POOL_REFUSAL(bench(&second, set, view[1])), 0, 0);
    expect_bytes("the matched run's view", view[0], view[1], run_bytes(r, set, POOL_RUN_VIEW));
}

static void many_plans(unsigned count)
{
    static struct run r, other;
    unsigned points[15];
    for (unsigned k = 0; k < count; k++) {
        unsigned version = 2 + k % 2;
        any_plan(&r, 1, small_prime());
        first_points(points);
        other.plan_len = in_version(version, other.plan, r.plan, points);
        expect("points 1 to n", pool_plan_check(other.plan, other.plan_len), 0, 0);
        same_plan(&r, &other);
        any_points(points, r.plan[5], get_field(r.plan, PRIME));
        other.plan_len = in_version(version, other.plan, r.plan, points);
        expect("other points", pool_plan_check(other.plan, other.plan_len), 0, 0);
        any_triples(&other);
        other_points(&r, &other);
        matched_run(&other);
    }
}

/* Plan K over 101 with the points 7, 40, 3; its numbers were worked out by hand. */
static size_t codes(uint8_t *plan, unsigned a, unsigned b, unsigned c)
{
    uint8_t first[64];
    plan_k(first);
    put_field(first, PRIME, 101);
    return in_version(2, plan, first, (const unsigned[]){a, b, c});
}

static void listed(const char *what, const uint8_t *bytes, const unsigned *want, unsigned count)
{
    uint8_t list[BYTES(32)];
    put_list(list, want, count);
    expect_bytes(what, bytes, list, BYTES(count));
}

static void site_codes(void)
{
    uint8_t plan[80], figures[BYTES(2)], second[BYTES(2)], coins[BYTES(5)], matched[BYTES(5)], view[BYTES(10)];
    size_t len = codes(plan, 7, 40, 3);
    put_list(figures, (const unsigned[]){4, 5}, 2);
    put_list(second, (const unsigned[]){8, 2}, 2);
    put_list(coins, (const unsigned[]){2, 3, 1, 5, 7}, 5);
    hold("sent", POOL_VALUE(pool_bench(plan, len, 4, figures, sizeof figures, coins, sizeof coins, NO_TRIPLES, view, sizeof view)) == 18);
    listed("seat 3's view", view, (const unsigned[]){7, 10, 14, 67, 11, 60, 16, 36, 35, 24}, 10);
    expect("matched", pool_match(plan, len, 4, figures, sizeof figures, second, sizeof second, coins, sizeof coins, matched, sizeof matched), 0, 0);
    listed("matched coins", matched, (const unsigned[]){68, 4, 64, 17, 7}, 5);
    pool_bench(plan, len, 4, second, sizeof second, matched, sizeof matched, NO_TRIPLES, view, sizeof view);
    listed("seat 3's view of the matched run", view, (const unsigned[]){7, 10, 14, 67, 11, 60, 16, 36, 35, 24}, 10);
}

static void pointed(const char *what, unsigned a, unsigned b, unsigned c, unsigned number)
{
    uint8_t plan[80];
    expect(what, pool_plan_check(plan, codes(plan, a, b, c)), number, 0);
}

static void changed(const char *what, size_t at, unsigned v, unsigned number, uint32_t place)
{
    uint8_t plan[80];
    size_t len = codes(plan, 7, 40, 3);
    plan[at] = (uint8_t)v;
    expect(what, pool_plan_check(plan, len), number, place);
}

static void refusals(void)
{
    uint8_t plan[80];
    pointed("site codes", 7, 40, 3, 0);
    pointed("p - 1 and 1", 100, 1, 2, 0);
    pointed("0 first", 0, 40, 3, 26);
    pointed("0 last", 7, 40, 0, 26);
    pointed("p", 7, 101, 3, 26);
    pointed("over p", 7, 40, 65535, 26);
    pointed("twice, next to each other", 7, 40, 40, 26);
    pointed("twice, apart", 7, 40, 7, 26);
    changed("version 0", 4, 0, 2, 0);
    changed("version 5", 4, 5, 2, 0);
    changed("version 1 with points", 4, 1, 6, 0);
    changed("the points' offset", 18, 48, 6, 0);
    changed("the gates' offset", 10, 18, 6, 0);
    changed("the outs' offset", 14, 42, 6, 0);
    changed("gate 1's kind", 26, 9, 7, 1);
    changed("out 0's seat", 44, 4, 8, 0);
    size_t len = codes(plan, 7, 7, 7);
    plan[44] = 4;
    expect("8 before 26", pool_plan_check(plan, len), 8, 0);
    len = codes(plan, 7, 40, 3);
    for (size_t k = 0; k < len; k++)
        expect("cut short", pool_plan_check(plan, k), k < 18 ? 1 : 6, 0);
    expect("a byte more", pool_plan_check(plan, len + 1), 6, 0);
    plan[8] = 9;
    expect("5 before the 6 of 18 bytes", pool_plan_check(plan, 18), 5, 0);
}

int main(void)
{
    refusals();
    site_codes();
    many_plans(2000);
    printf("%d passed, %d failed\n", passed, failed);
    return failed != 0;
}
