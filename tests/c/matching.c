/* The matching over every setting of coins of plan K with p = 5: one to one, leaving none out, members' coins kept, and equal views. */
#include <stdlib.h>

#include "plans.h"

enum { P = 5, COINS = 5, SETTINGS = 3125, MOST = BYTES(32) };

static uint8_t plan[64];
static size_t plan_len;

static void list(uint8_t *to, unsigned setting, unsigned count)
{
    for (unsigned i = 0; i < count; i++, setting /= P)
        put(to + BYTES(i), setting % P);
}

static unsigned setting_of(const uint8_t *from)
{
    unsigned setting = 0;
    for (unsigned i = COINS; i-- > 0;)
        setting = setting * P + get(from + BYTES(i));
    return setting;
}

/* All settings for one set and two lists of figures that the matching takes; `own` are the members' places among the coins. */
static void settings(unsigned set, const uint8_t *first, const uint8_t *second, const unsigned *own, unsigned owned)
{
    static uint8_t seen[SETTINGS];
    uint8_t coins[BYTES(COINS)], matched[BYTES(COINS)], view[MOST], other[MOST];
    size_t len = (size_t)POOL_VALUE(pool_run_size(plan, plan_len, (uint16_t)set, POOL_RUN_VIEW));
    int kept = 1, same = 1, once = 1, taken = 1;
    memset(seen, 0, sizeof seen);
    for (unsigned setting = 0; setting < SETTINGS; setting++) {
        list(coins, setting, COINS);
        taken &= pool_match(plan, plan_len, (uint16_t)set, first, BYTES(2), second, BYTES(2), coins, sizeof coins, matched, sizeof matched) == 0;
        taken &= POOL_REFUSAL(pool_bench(plan, plan_len, (uint16_t)set, first, BYTES(2), coins, sizeof coins, NO_TRIPLES, view, len)) == 0;
        taken &= POOL_REFUSAL(pool_bench(plan, plan_len, (uint16_t)set, second, BYTES(2), matched, sizeof matched, NO_TRIPLES, other, len)) == 0;
        same &= memcmp(view, other, len) == 0;
        for (unsigned i = 0; i < owned; i++)
            kept &= get(coins + BYTES(own[i])) == get(matched + BYTES(own[i]));
        once &= !seen[setting_of(matched)]++;
    }
    hold("every setting is matched", taken);
    hold("the views are the same", same);
    hold("the members' coins stay", kept);
    hold("one to one", once);
}

int main(void)
{
    /* the coins in order: seat 1's input, seat 2's input, then the dealers 1, 2, 3 of the product */
    static const unsigned own1[] = {0, 2}, own2[] = {1, 3}, own3[] = {4};
    static const unsigned *own[] = {NULL, own1, own2, own3};
    static const unsigned owned[] = {0, 2, 2, 1};
    unsigned pairs = 0, moved = 0;
    plan_len = plan_k(plan);
    put_field(plan, PRIME, P);
    for (unsigned member = 0; member <= 3; member++) {
        for (unsigned both = 0; both < 625; both++) {
            uint8_t first[BYTES(2)], second[BYTES(2)], coins[BYTES(COINS)] = {0}, matched[BYTES(COINS)];
            unsigned set = member ? 1u << (member - 1) : 0;
            list(first, both % 25, 2);
            list(second, both / 25, 2);
            if (pool_match(plan, plan_len, (uint16_t)set, first, sizeof first, second, sizeof second, coins, sizeof coins, matched, sizeof matched) != 0)
                continue;
            pairs++;
            moved += memcmp(coins, matched, sizeof coins) != 0;
            if (pairs % 16 == 0)
                settings(set, first, second, own[member], owned[member]);
        }
    }
    hold("many pairs of lists are matched", pairs > 500);
    hold("and many of them move a coin", moved > 300);
    printf("%d passed, %d failed\n", passed, failed);
    return failed != 0;
}
