/* Counting the views: the worked rows, as many settings as there may be and more, the empty set, t = 0, the order of the refusals, and tiny plans
 * whose rows are compared with the bench's views of every setting. */
#include <stdlib.h>

#include "runs.h"

enum { MOST_ROWS = 1 << 23, GUARD = 16, MOST_SETTINGS = 65536, TINY = 3000 };

static uint8_t rows[MOST_ROWS + GUARD], before[MOST_ROWS + GUARD], wanted[MOST_ROWS];

/* ---- calls, with what they leave as it was */

/* A tiny run; its coins are the members' alone. */
struct counted {
    struct run run;
    uint16_t set;
};

static uint64_t count(const struct counted *c, size_t room)
{
    const struct run *r = &c->run;
    for (size_t i = 0; i < room + GUARD; i++)
        before[i] = rows[i] = (uint8_t)below(256);
    uint64_t answer = pool_count(r->plan, r->plan_len, c->set, r->figures, r->figures_len, r->coins, r->coins_len, rows, room);
    if (POOL_REFUSAL(answer))
        expect_bytes("a refused call writes nothing", rows, before, room + GUARD);
    else
        expect_bytes("a call writes no byte more", rows + room, before + room, GUARD);
    return answer;
}

/* The rows' size, and the rows themselves. */
static size_t counted(const struct counted *c)
{
    uint64_t size = pool_count_size(c->run.plan, c->run.plan_len, c->set);
    expect("the rows' size", POOL_REFUSAL(size), 0, 0);
    hold("the rows have room", POOL_VALUE(size) <= MOST_ROWS);
    expect("the views are counted", count(c, (size_t)POOL_VALUE(size)), 0, 0);
    return (size_t)POOL_VALUE(size);
}

static void refused(const char *what, const struct counted *c, size_t room, unsigned number, uint32_t place)
{
    expect(what, count(c, room), number, place);
}

/* The counts of the rows; only the first rows have one, they stand ascending, and those left over are 0. Answers how many have one. */
static size_t sum_of(size_t size, size_t width, uint64_t *sum)
{
    size_t reached = 0, all = size / BYTES(width), wrong = 0;
    *sum = 0;
    while (reached < all && get(rows + BYTES(width * (reached + 1) - 1)))
        *sum += get(rows + BYTES(width * (++reached) - 1));
    for (size_t i = BYTES(width * reached); i < size; i++)
        wrong += rows[i] != 0;
    for (size_t k = 1; k < reached; k++) {
        size_t i = 0;
        while (i + 1 < width && get(rows + BYTES(width * (k - 1) + i)) == get(rows + BYTES(width * k + i)))
            i++;
        wrong += i + 1 == width || get(rows + BYTES(width * (k - 1) + i)) > get(rows + BYTES(width * k + i));
    }
    hold("rows ascend, and those left over are 0", wrong == 0);
    return reached;
}

/* ---- plans */

/* So many inputs of seat 1 of two, each with a coin; seat 2 sees a piece of each. */
static void inputs_plan(struct counted *c, unsigned version, unsigned p, unsigned inputs, unsigned set)
{
    c->run.plan_len = contents_in(version, c->run.plan, 2, 1, p, inputs, 1);
    for (unsigned g = 0; g < inputs; g++)
        gate(c->run.plan, g, 1, 1, 0);
    out(c->run.plan, inputs, 0, 1, 0);
    c->set = (uint16_t)set;
    c->run.figures_len = inputs <= MOST_GATES ? BYTES(inputs) : 0;
    c->run.coins_len = set == 1 && inputs <= MOST_GATES ? BYTES(inputs) : 0;
    for (unsigned i = 0; i < inputs && i < MOST_GATES; i++)
        put(c->run.figures + BYTES(i), below(p));
    for (unsigned i = 0; i < inputs && i < MOST_GATES; i++)
        put(c->run.coins + BYTES(i), below(p));
}

/* n = 2, t = 1, p = 3: inputs of 1 and 2 added, out to 1; set {2}, figures 1 and 2, coin 1. */
static void worked_plan(struct counted *c, unsigned version)
{
    c->run.plan_len = contents_in(version, c->run.plan, 2, 1, 3, 3, 1);
    gate(c->run.plan, 0, 1, 1, 0);
    gate(c->run.plan, 1, 1, 2, 0);
    gate(c->run.plan, 2, 2, 0, 1);
    out(c->run.plan, 3, 0, 1, 2);
    c->set = 2;
    c->run.figures_len = BYTES(2);
    c->run.coins_len = BYTES(1);
    put_list(c->run.figures, (const unsigned[]){1, 2}, 2);
    put_list(c->run.coins, (const unsigned[]){1}, 1);
}

/* ---- what is worked by hand */

static void worked(void)
{
    static const unsigned want[] = {2, 1, 0, 1, 1, 2, 1, 1, 1, 1, 2, 1, 2, 1, 1};
    static struct counted c;
    put_list(wanted, want, 15);
    for (unsigned version = 1; version <= VERSIONS; version++) {
        worked_plan(&c, version);
        hold("the worked rows have 60 bytes", counted(&c) == 60);
        expect_bytes("the worked rows", rows, wanted, 60);
        put(c.run.figures, 0);
        counted(&c);
        expect_bytes("the same rows for another figure of seat 1", rows, wanted, 60);
        put(c.run.figures + BYTES(1), 0);
        counted(&c);
        hold("other rows for another figure of seat 2", memcmp(rows, wanted, 60) != 0);
    }
}

/* Each setting leads to a view of its own: row k has the digits of k to the base p, the highest first, and 1. */
static void all_digits(unsigned version, unsigned p, unsigned coins, unsigned settings)
{
    static struct counted c;
    size_t wrong = 0;
    inputs_plan(&c, version, p, coins, 2);
    hold("the rows' size for many settings", counted(&c) == BYTES((size_t)settings * (coins + 1)));
    for (unsigned k = 0; k < settings; k++) {
        const uint8_t *row = rows + BYTES((size_t)k * (coins + 1));
        for (unsigned i = coins, left = k; i-- > 0; left /= p)
            wrong += get(row + BYTES(i)) != left % p;
        wrong += get(row + BYTES(coins)) != 1;
    }
    hold("many settings, a view each", wrong == 0);
    inputs_plan(&c, version, p, coins, 0);
    hold("the empty set's rows have a number each", counted(&c) == BYTES(settings));
    hold("the empty set's count is that of all settings", get(rows) == settings);
    for (size_t i = BYTES(1); i < BYTES(settings); i++)
        wrong += rows[i] != 0;
    hold("the empty set has no other row", wrong == 0);
}

/* The settings stop at 65,536 for any prime and any count of coins, and nothing wraps around. */
static void limits(void)
{
    static const unsigned primes[] = {3, 5, 7, 17, 251, 257, 509, 4099, 65521, 65537, 65539, 16777259, 1073741827, MOST_PRIME};
    static const unsigned counts[] = {1, 2, 3, 4, 5, 6, 8, 10, 11, 16, 17, 31, 32, 33, 40, 41, 64, 127, 128, 1023, 1024};
    static struct counted c;
    for (unsigned i = 0; i < sizeof primes / sizeof *primes * (sizeof counts / sizeof *counts); i++) {
        unsigned p = primes[i % (sizeof primes / sizeof *primes)], coins = counts[i / (sizeof primes / sizeof *primes)];
        uint64_t settings = 1;
        for (unsigned k = 0; k < coins && settings <= MOST_SETTINGS; k++)
            settings *= p;
        inputs_plan(&c, version_for(p), p, coins, 2);
        uint64_t size = pool_count_size(c.run.plan, c.run.plan_len, c.set);
        if (settings > MOST_SETTINGS)
            expect("over 65,536 settings", size, 30, 0);
        else
            hold("the size of so many settings", size == BYTES(settings * (coins + 1)) << 8);
        inputs_plan(&c, version_for(p), p, coins, 1);
        size = pool_count_size(c.run.plan, c.run.plan_len, c.set);
        /* the member's figures, coins, pieces; two shares of its out and the result; and the count */
        hold("one setting where all coins are the member's", size == BYTES((uint64_t)3 * coins + 3 + 1) << 8);
    }
}

/* Two coins over 257 and one over 65,537 are refused; a setting fewer in each way is not. */
static void too_many(void)
{
    static const unsigned over[][3] = {{1, 257, 2}, {2, 257, 2}, {3, 257, 2}, {3, 65537, 1}, {1, 3, 11}, {1, 65521, 2}, {3, MOST_PRIME, 1}, {3, MOST_PRIME, 9}};
    static struct counted c;
    for (unsigned i = 0; i < sizeof over / sizeof *over; i++) {
        for (unsigned set = 0; set <= 2; set += 2) {
            inputs_plan(&c, over[i][0], over[i][1], over[i][2], set);
            expect("the size of over 65,536 settings", pool_count_size(c.run.plan, c.run.plan_len, c.set), 30, 0);
            refused("over 65,536 settings", &c, 0, 30, 0);
            refused("over 65,536 settings, with room", &c, 1000, 30, 0);
        }
        inputs_plan(&c, over[i][0], over[i][1], over[i][2], 1);
        uint64_t sum;
        size_t size = counted(&c);
        hold("a setting where all coins are the member's", sum_of(size, size / BYTES(1), &sum) == 1 && sum == 1);
    }
}

/* No coins and no members: one setting, one row without a view. */
static void no_threshold(void)
{
    static struct counted c;
    for (unsigned n = 1; n <= 15; n++) {
        for (unsigned version = 1; version <= VERSIONS; version++) {
            c.run.plan_len = contents_in(version, c.run.plan, n, 0, version < 3 ? 65521 : MOST_PRIME, 2, 1);
            gate(c.run.plan, 0, 1, n, 0);
            gate(c.run.plan, 1, 5, 0, 0);
            out(c.run.plan, 2, 0, 1, 1);
            c.set = 0;
            c.run.figures_len = BYTES(1);
            c.run.coins_len = 0;
            put(c.run.figures, 7);
            hold("t = 0: a row of one number", counted(&c) == BYTES(1) && get(rows) == 1);
            c.set = 1;
            expect("t = 0: no set has a member", pool_count_size(c.run.plan, c.run.plan_len, 1), 9, 0);
            refused("t = 0: no set has a member", &c, BYTES(1), 9, 0);
        }
    }
}

/* Each refusal before those that come after it. */
static void order(void)
{
    static struct counted c;
    inputs_plan(&c, 1, 257, 2, 2);
    put(c.run.figures + BYTES(1), 256);
    refused("30 before 19", &c, 3, 30, 0);
    c.run.coins_len = BYTES(1);
    refused("12 before 30", &c, 3, 12, 0);
    put(c.run.figures + BYTES(1), 257);
    refused("11 before 12", &c, 3, 11, 1);
    c.run.figures_len--;
    refused("10 before 11", &c, 3, 10, 0);
    c.set = 3;
    refused("9 before 10: over t members", &c, 3, 9, 0);
    c.set = 4;
    refused("9 before 10: a seat above n", &c, 3, 9, 0);
    c.run.plan[4] = 9;
    refused("2 before 9", &c, 3, 2, 0);
    expect("the size: 2 before 9", pool_count_size(c.run.plan, c.run.plan_len, c.set), 2, 0);
    inputs_plan(&c, 1, 257, 2, 3);
    expect("the size: 9 before 30", pool_count_size(c.run.plan, c.run.plan_len, c.set), 9, 0);
    inputs_plan(&c, 1, 257, 3, 1);
    put(c.run.coins + BYTES(2), 257);
    refused("13 before 19", &c, 3, 13, 2);
    put(c.run.coins + BYTES(2), 256);
    for (size_t room = 0; room < 64; room++)
        refused("a room for the rows", &c, room, room == BYTES(13) ? 0 : 19, 0);
    c.run.plan_len--;
    refused("6 before 9", &c, 3, 6, 0);
}

/* ---- tiny plans, setting by setting */

/* Whose each coin of the whole list is, seats from 1 on; answers how many there are. */
static unsigned coin_seats(const struct run *r, unsigned *seats)
{
    unsigned coins = 0;
    for (unsigned g = 0; g < get_field(r->plan, GATE_COUNT); g++)
        for (unsigned seat = 1; seat <= r->plan[5]; seat++)
            for (unsigned k = coins_at(r->plan, g, seat); k > 0; k--)
                seats[coins++] = seat;
    return coins;
}

static unsigned is_member(unsigned set, unsigned seat)
{
    return set >> (seat - 1) & 1;
}

/* A tiny plan with a set whose settings are few; none where the last try has too many. */
static unsigned tiny(struct counted *c, unsigned version)
{
    static const unsigned primes[] = {3, 5, 5, 5, 5, 7, 101};
    struct run *r = &c->run;
    unsigned n = 2 + below(3), t = 1 + below(n - 1), p = primes[below(7)], gates = 1 + below(5), outs = 1 + below(2), seats[400], points[15];
    while (p <= n)
        p = primes[below(7)];
    r->plan_len = contents_in(version, r->plan, n, t, p, gates, outs);
    for (unsigned g = 0; g < gates; g++) {
        unsigned kind = g == 0 ? 1 : 1 + below(2 * t < n ? 5 : 4);
        gate(r->plan, g, kind, kind == 1 ? 1 + below(n) : below(g), kind == 1 ? 0 : kind == 2 || kind == 5 ? below(g) : below(p));
    }
    for (unsigned o = 0; o < outs; o++)
        out(r->plan, gates, o, 1 + below(n), below(gates));
    any_points(points, n, p);
    for (unsigned i = 0; has_points(versions[version]) && i < n; i++)
        point(r->plan, i, points[i]);
    c->set = below(3) ? any_set(r->plan) : (uint16_t)(below(4) ? 1u << below(n) : 0);
    any_lists(r);
    unsigned coins = coin_seats(r, seats), settings = 1;
    hold("as many coins as the library says", BYTES(coins) == r->coins_len);
    for (unsigned i = 0; i < coins && settings <= TINY; i++)
        settings *= is_member(c->set, seats[i]) ? 1 : p;
    return settings <= TINY ? settings : 0;
}

/* The members' coins of all coins. */
static void keep_members(struct counted *c, const uint8_t *all, const unsigned *seats, unsigned coins)
{
    c->run.coins_len = 0;
    for (unsigned i = 0; i < coins; i++)
        if (is_member(c->set, seats[i])) {
            memcpy(c->run.coins + c->run.coins_len, all + BYTES(i), BYTES(1));
            c->run.coins_len += BYTES(1);
        }
}

static size_t compared; /* the numbers of a view */

static int by_view(const void *first, const void *second)
{
    for (size_t i = 0; i < compared; i++) {
        unsigned a = get((const uint8_t *)first + BYTES(i)), b = get((const uint8_t *)second + BYTES(i));
        if (a != b)
            return a < b ? -1 : 1;
    }
    return 0;
}

/* The next setting of the others' coins. */
static void next_setting(struct run *r, const unsigned *seats, unsigned coins, unsigned set)
{
    for (unsigned i = 0; i < coins; i++) {
        if (is_member(set, seats[i]))
            continue;
        unsigned coin = (get(r->coins + BYTES(i)) + 1) % get_field(r->plan, PRIME);
        put(r->coins + BYTES(i), coin);
        if (coin)
            return;
    }
}

/* The rows from the bench's views: a view for each setting, sorted, equal ones counted. */
static void rows_by_bench(struct run *r, unsigned set, unsigned settings, size_t width, const unsigned *seats, unsigned coins)
{
    size_t to = 0;
    for (unsigned k = 0; k < settings; k++, next_setting(r, seats, coins, set))
        bench(r, set, wanted + BYTES(width * k));
    compared = width - 1;
    qsort(wanted, settings, BYTES(width), by_view);
    for (size_t k = 0, same; k < settings; k += same) {
        for (same = 1; k + same < settings && !by_view(wanted + BYTES(width * k), wanted + BYTES(width * (k + same))); same++)
            ;
        memmove(wanted + BYTES(width * to), wanted + BYTES(width * k), BYTES(width - 1));
        put(wanted + BYTES(width * ++to - 1), (unsigned)same);
    }
    memset(wanted + BYTES(width * to), 0, BYTES(width * (settings - to)));
}

/* Other figures of the seats outside the set that give the set the same results: the same rows. Answers whether there are such. */
static unsigned other_figures(const struct counted *c, const struct run *whole, size_t size)
{
    static struct counted other;
    static uint8_t matched[MOST_COINS];
    other = *c;
    put(other.run.figures + BYTES(below((unsigned)c->run.figures_len / BYTES(1))), below(get_field(c->run.plan, PRIME)));
    if (!memcmp(other.run.figures, c->run.figures, c->run.figures_len) ||
        pool_match(whole->plan, whole->plan_len, c->set, whole->figures, whole->figures_len, other.run.figures, whole->figures_len, whole->coins,
            whole->coins_len, matched, whole->coins_len))
        return 0;
    counted(&other);
    expect_bytes("the same rows for figures that match", rows, wanted, size);
    return 1;
}

static void tiny_plans(unsigned times)
{
    static struct counted c;
    static struct run whole;
    unsigned seats[400], full = 0, several = 0, same = 0, done = 0;
    while (done < times) {
        unsigned settings = tiny(&c, 1 + done % VERSIONS);
        if (!settings)
            continue;
        done++;
        unsigned coins = coin_seats(&c.run, seats), members = 0;
        size_t width = run_bytes(&c.run, c.set, POOL_RUN_VIEW) / BYTES(1) + 1;
        uint64_t sum;
        whole = c.run;
        keep_members(&c, whole.coins, seats, coins);
        size_t size = counted(&c), reached = sum_of(size, width, &sum);
        hold("as many rows as settings", size == BYTES(width * settings));
        hold("the counts add up to the settings", sum == settings);
        rows_by_bench(&whole, c.set, settings, width, seats, coins);
        expect_bytes("the rows are the bench's views, counted", rows, wanted, size);
        for (unsigned seat = 1; seat <= c.run.plan[5]; seat++)
            members += is_member(c.set, seat);
        if (members == c.run.plan[6] && c.run.plan[4] < MASKING)
            hold("for exactly t members no view has two settings", reached == settings);
        full += members == c.run.plan[6] && settings > 1;
        several += reached < settings;
        same += other_figures(&c, &whole, size);
    }
    hold("many sets of t members and of fewer, many lists that match", full > times / 8 && several > times / 8 && same > times / 8);
}

int main(void)
{
    worked();
    all_digits(1, 65521, 1, 65521);
    all_digits(2, 251, 2, 63001);
    all_digits(1, 3, 10, 59049);
    all_digits(3, 3, 10, 59049);
    limits();
    too_many();
    no_threshold();
    order();
    tiny_plans(400);
    printf("%d passed, %d failed\n", passed, failed);
    return failed != 0;
}
