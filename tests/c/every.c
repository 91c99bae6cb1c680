/* The matching over every setting of the others' coins of tiny plans over 5, for each set of one of three seats, with points 1 to 3 and others; also in version 4: equal
 * views, the members' coins kept, and no setting given twice. The same of the matching over a preparing and a main run, over every setting of what it may
 * move. */
#include "runs.h"

enum { P = 5, SEATS = 3, MOST_SETTINGS = 390625, SHAPES = 4, MASKED = 7, PAIRS = 2 };

/* Gates: kind, a, b; the last one's wire is the out of every seat. */
static const unsigned shapes[SHAPES][4][3] = {
    {{6, 0, 0}},
    {{6, 0, 0}, {5, 0, 0}},
    {{6, 0, 0}, {1, 2, 0}, {5, 1, 0}, {3, 2, 3}},
    {{1, 1, 0}, {6, 0, 0}, {5, 0, 1}, {2, 2, 0}},
};

/* Those of version 4, in which a product takes six coins of the others, and the set's seat. */
static const struct {
    unsigned member, gates[4][3];
} masked[MASKED] = {
    {1, {{1, 2, 0}, {5, 0, 0}}},
    {2, {{1, 3, 0}, {5, 0, 0}}},
    {3, {{1, 1, 0}, {5, 0, 0}}},
    {1, {{1, 1, 0}, {1, 2, 0}, {5, 0, 1}, {2, 2, 0}}},
    {2, {{1, 1, 0}, {1, 2, 0}, {5, 0, 1}, {2, 2, 0}}},
    {3, {{1, 1, 0}, {1, 2, 0}, {5, 0, 1}, {2, 2, 0}}},
    {2, {{6, 0, 0}, {5, 0, 0}}},
};

/* Those that spend a triple, the versions of the preparing and the main plan, and the set's seat. */
static const struct {
    unsigned member, preparing, main, gates[4][3];
} spending[] = {
    {1, 1, 1, {{1, 2, 0}, {7, 0, 0}}},
    {2, 3, 2, {{1, 3, 0}, {7, 0, 0}, {3, 1, 2}}},
    {3, 2, 3, {{1, 1, 0}, {7, 0, 0}, {2, 1, 1}}},
    {1, 2, 4, {{1, 1, 0}, {1, 2, 0}, {7, 0, 1}, {2, 2, 0}}},
    {2, 1, 1, {{1, 2, 0}, {1, 3, 0}, {7, 1, 0}, {2, 2, 1}}},
};

enum { SPENDING = sizeof spending / sizeof *spending, DRAWS = 2 * SEATS, EARLY = DRAWS + 3 * SEATS, MOST_LIST = EARLY + 4 };

static struct run first, second;
static unsigned member; /* the set's one seat */

static void make_plan(unsigned version, const unsigned (*gates)[3], const unsigned *points)
{
    unsigned count = 0;
    while (count < 4 && gates[count][0])
        count++;
    first.plan_len = contents_in(version, first.plan, SEATS, 1, P, count, SEATS);
    for (unsigned g = 0; g < count; g++)
        gate(first.plan, g, gates[g][0], gates[g][1], gates[g][2]);
    for (unsigned seat = 1; seat <= SEATS; seat++)
        out(first.plan, count, seat - 1, seat, count - 1);
    for (unsigned i = 0; has_points(versions[version]) && i < SEATS; i++)
        point(first.plan, i, points[i]);
}

static uint64_t match(void)
{
    return pool_match(first.plan, first.plan_len, (uint16_t)(1u << (member - 1)), first.figures, first.figures_len, second.figures, first.figures_len,
        first.coins, first.coins_len, second.coins, first.coins_len);
}

/* Lists of figures that are matched and differ; the first run's members' coins at random. */
static void any_pair(void)
{
    do {
        any_lists(&first);
        memcpy(second.figures, first.figures, sizeof first.figures);
        for (size_t i = 0; i < first.figures_len; i += BYTES(1))
            put(second.figures + i, below(2) ? below(P) : get(first.figures + i));
    } while (!memcmp(first.figures, second.figures, first.figures_len) || match());
}

/* The places of the others' coins: those that are not in the member's own list, which stands in its view. Answers their count. */
static unsigned others(unsigned *places)
{
    static uint8_t view[MOST_VIEW];
    static struct run marked;
    unsigned count = 0, coins = (unsigned)(first.coins_len / BYTES(1));
    size_t figures = (size_t)POOL_VALUE(pool_seat_size(first.plan, first.plan_len, (uint16_t)member, 0, POOL_SEAT_FIGURES));
    size_t own = (size_t)POOL_VALUE(pool_seat_size(first.plan, first.plan_len, (uint16_t)member, 0, POOL_SEAT_COINS));
    for (unsigned place = 0; place < coins; place++) {
        marked = first;
        memset(marked.coins, 0, marked.coins_len);
        put(marked.coins + BYTES(place), 1);
        bench(&marked, 1u << (member - 1), view);
        unsigned shown = 0;
        for (size_t i = 0; i < own; i += BYTES(1))
            shown += get(view + figures + i);
        if (!shown)
            places[count++] = place;
    }
    return count;
}

static unsigned power(unsigned count)
{
    unsigned settings = 1;
    while (count-- > 0)
        settings *= P;
    return settings;
}

/* All settings for one pair of lists. */
static void settings(const unsigned *places, unsigned count)
{
    static uint8_t seen[MOST_SETTINGS], view[2][MOST_VIEW], own[MOST_COINS];
    unsigned all = power(count), once = 1, same = 1, kept = 1, taken = 1;
    uint16_t set = (uint16_t)(1u << (member - 1));
    size_t view_len = run_bytes(&first, set, POOL_RUN_VIEW);
    memset(seen, 0, all);
    memcpy(own, first.coins, first.coins_len);
    for (unsigned setting = 0; setting < all; setting++) {
        unsigned given = 0;
        for (unsigned i = 0, rest = setting; i < count; i++, rest /= P)
            put(first.coins + BYTES(places[i]), rest % P);
        taken &= match() == 0;
        taken &= POOL_REFUSAL(pool_bench(first.plan, first.plan_len, set, first.figures, first.figures_len, first.coins, first.coins_len, NO_TRIPLES, view[0], view_len)) == 0;
        taken &= POOL_REFUSAL(pool_bench(first.plan, first.plan_len, set, second.figures, first.figures_len, second.coins, first.coins_len, NO_TRIPLES, view[1], view_len)) == 0;
        same &= memcmp(view[0], view[1], view_len) == 0;
        for (unsigned i = count; i-- > 0;) {
            given = given * P + get(second.coins + BYTES(places[i]));
            put(second.coins + BYTES(places[i]), get(own + BYTES(places[i])));
        }
        kept &= memcmp(second.coins, own, first.coins_len) == 0;
        once &= given < all && !seen[given]++;
    }
    hold("every setting is matched", (int)taken);
    hold("the views are the same", (int)same);
    hold("the member's coins stay", (int)kept);
    hold("one to one", (int)once);
}

static void all_settings(unsigned version, const unsigned (*gates)[3], const unsigned *points, unsigned pairs)
{
    unsigned places[64];
    make_plan(version, gates, points);
    expect("a tiny plan", pool_plan_check(first.plan, first.plan_len), 0, 0);
    if (pool_plan_check(first.plan, first.plan_len))
        return;
    for (unsigned pair = 0; pair < pairs; pair++) {
        any_pair();
        settings(places, others(places));
    }
}

/* ---- a preparing and a main run */

/* What all seats draw in both runs: the preparing plan's draws, its coins, the main plan's coins. */
static unsigned lists[2][MOST_LIST], list_len;
static struct run preparing;

static uint64_t match_prepared(void)
{
    uint8_t list[BYTES(MOST_LIST)], matched[BYTES(MOST_LIST)];
    put_list(list, lists[0], list_len);
    uint64_t answer = pool_match_prepared(preparing.plan, preparing.plan_len, first.plan, first.plan_len, (uint16_t)(1u << (member - 1)), first.figures,
        first.figures_len, second.figures, first.figures_len, list, BYTES(list_len), matched, BYTES(list_len));
    for (unsigned i = 0; i < list_len && !answer; i++)
        lists[1][i] = get(matched + BYTES(i));
    return answer;
}

static unsigned inverse(unsigned x)
{
    unsigned y = 1;
    while (x % P * y % P != 1)
        y++;
    return y;
}

/* The weight at 0 of a seat's point among all seats', the seat counted from 0. */
static unsigned weight(unsigned seat)
{
    unsigned w = 1, x = point_of(first.plan, seat);
    for (unsigned i = 0; i < SEATS; i++)
        if (i != seat)
            w = w * point_of(first.plan, i) * inverse(P + point_of(first.plan, i) - x) % P;
    return w;
}

/* The triples that the preparing run with this list ends with, by hand. */
static void prepare(const unsigned *list, uint8_t *triples)
{
    unsigned share[3][SEATS];
    for (unsigned i = 0; i < SEATS; i++)
        for (unsigned wire = 0; wire < 2; wire++) {
            share[wire][i] = 0;
            for (unsigned dealer = SEATS * wire; dealer < SEATS * (wire + 1); dealer++)
                share[wire][i] += list[dealer] + list[DRAWS + dealer] * point_of(first.plan, i);
        }
    for (unsigned i = 0; i < SEATS; i++) {
        share[2][i] = 0;
        for (unsigned dealer = 0; dealer < SEATS; dealer++)
            share[2][i] += weight(dealer) * (share[0][dealer] % P * (share[1][dealer] % P) + list[DRAWS + DRAWS + dealer] * point_of(first.plan, i));
        for (unsigned wire = 0; wire < 3; wire++)
            put(triples + BYTES(3 * i + wire), share[wire][i] % P);
    }
}

/* The set's views of the preparing and the main run, one after the other, with these figures and this list. Answers whether neither run is refused. */
static int both_views(const struct run *main_run, const unsigned *list, uint8_t *view)
{
    uint8_t draws[BYTES(DRAWS)], early[BYTES(3 * SEATS)], coins[BYTES(4)], triples[BYTES(3 * SEATS)];
    uint16_t set = (uint16_t)(1u << (member - 1));
    size_t len = run_bytes(&preparing, set, POOL_RUN_VIEW);
    put_list(draws, list, DRAWS);
    put_list(early, list + DRAWS, 3 * SEATS);
    put_list(coins, list + EARLY, list_len - EARLY);
    prepare(list, triples);
    uint64_t answer = pool_bench(preparing.plan, preparing.plan_len, set, draws, sizeof draws, early, sizeof early, NO_TRIPLES, view, len);
    uint64_t after = pool_bench(first.plan, first.plan_len, set, main_run->figures, first.figures_len, coins, BYTES(list_len - EARLY), triples,
        sizeof triples, view + len, run_bytes(&first, set, POOL_RUN_VIEW));
    return !POOL_REFUSAL(answer) && !POOL_REFUSAL(after);
}

/* The places that the matching may move: the lowest other seat's draws, the coins by which it deals them, the others' coins of the product, and those of
 * their inputs. Answers their count. */
static unsigned movable(unsigned *places)
{
    unsigned count = 0, lowest = member == 1 ? 2 : 1, coin = EARLY;
    for (unsigned wire = 0; wire < 2; wire++) {
        places[count++] = SEATS * wire + lowest - 1;
        places[count++] = DRAWS + SEATS * wire + lowest - 1;
    }
    for (unsigned dealer = 1; dealer <= SEATS; dealer++)
        if (dealer != member)
            places[count++] = DRAWS + DRAWS + dealer - 1;
    for (unsigned g = 0; g < get_field(first.plan, GATE_COUNT); g++)
        for (unsigned seat = 1; seat <= SEATS; seat++)
            if (coins_at(first.plan, g, seat) && coin++ < EARLY + 4 && seat != member)
                places[count++] = coin - 1;
    return count;
}

/* Lists of figures that are matched and differ, and all else at random. */
static void any_prepared(void)
{
    do {
        any_lists(&first);
        list_len = EARLY + (unsigned)(first.coins_len / BYTES(1));
        for (unsigned i = 0; i < list_len; i++)
            lists[0][i] = below(P);
        for (size_t i = 0; i < first.figures_len; i += BYTES(1))
            put(second.figures + i, below(P));
    } while (!memcmp(first.figures, second.figures, first.figures_len) || match_prepared());
}

static void all_prepared(const unsigned *points, unsigned k)
{
    static uint8_t seen[MOST_SETTINGS], view[2][2 * MOST_VIEW];
    unsigned places[MOST_LIST], kept_list[MOST_LIST], once = 1, same = 1, kept = 1, taken = 1;
    member = spending[k].member;
    make_plan(spending[k].main, spending[k].gates, points);
    preparing.plan_len = preparing_in(spending[k].preparing, preparing.plan, first.plan);
    any_prepared();
    unsigned count = movable(places), all = power(count);
    uint16_t set = (uint16_t)(1u << (member - 1));
    size_t len = run_bytes(&preparing, set, POOL_RUN_VIEW) + run_bytes(&first, set, POOL_RUN_VIEW);
    hold("as many settings as there is room for", all <= MOST_SETTINGS);
    memset(seen, 0, sizeof seen);
    memcpy(kept_list, lists[0], sizeof kept_list);
    for (unsigned setting = 0; setting < all && all <= MOST_SETTINGS; setting++) {
        unsigned given = 0;
        for (unsigned i = 0, rest = setting; i < count; i++, rest /= P)
            lists[0][places[i]] = rest % P;
        taken &= match_prepared() == 0;
        taken &= (unsigned)both_views(&first, lists[0], view[0]) & (unsigned)both_views(&second, lists[1], view[1]);
        same &= memcmp(view[0], view[1], len) == 0;
        for (unsigned i = count; i-- > 0;) {
            given = given * P + lists[1][places[i]];
            lists[1][places[i]] = kept_list[places[i]];
        }
        kept &= memcmp(lists[1], kept_list, sizeof *kept_list * list_len) == 0;
        once &= given < all && !seen[given]++;
    }
    hold("every setting of both runs is matched", (int)taken);
    hold("the views of both runs are the same", (int)same);
    hold("nothing else moves", (int)kept);
    hold("one to one over both runs", (int)once);
}

int main(void)
{
    static const unsigned points[][SEATS] = {{1, 2, 3}, {4, 2, 1}, {3, 4, 2}};
    for (member = 1; member <= SEATS; member++)
        for (unsigned k = 0; k < SHAPES; k++) {
            all_settings(1, shapes[k], points[0], PAIRS);
            all_settings(2, shapes[k], points[1], PAIRS);
            all_settings(3, shapes[k], points[2], PAIRS);
        }
    for (unsigned k = 0; k < MASKED; k++) {
        member = masked[k].member;
        all_settings(MASKING, masked[k].gates, points[k % 3], 1);
    }
    for (unsigned k = 0; k < SPENDING; k++)
        all_prepared(points[spending[k].main == 1 || spending[k].preparing == 1 ? 0 : k % 3], k);
    printf("%d passed, %d failed\n", passed, failed);
    return failed != 0;
}
