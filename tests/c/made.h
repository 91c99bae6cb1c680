/* Plans made of texts: the buffer that they are written into, and their runs on the bench. */
#ifndef MADE_H
#define MADE_H

#include "plans.h"

static uint8_t plan[MOST_PLAN + 1], plan_before[sizeof plan];

/* Before a call that writes the plan: any bytes. */
static inline void fill_plan(void)
{
    for (size_t i = 0; i < sizeof plan; i++)
        plan_before[i] = plan[i] = (uint8_t)below(256);
}

/* After a call that was lent so much of the plan: it has its bytes where it is refused. */
static inline uint64_t kept_plan(uint64_t answer, size_t room)
{
    if (POOL_REFUSAL(answer))
        expect_bytes("a refused call writes nothing", plan, plan_before, sizeof plan);
    else
        expect_bytes("a call writes no byte more", plan + room, plan_before + room, sizeof plan - room);
    return answer;
}

/* What a call answered that gives the size of a plan: whether it is this one. */
static inline void expect_size(const char *what, uint64_t answer, size_t size)
{
    expect(what, POOL_REFUSAL(answer), 0, 0);
    expect(what, POOL_VALUE(answer) == size ? 0 : 1, 0, 0);
}

/* Runs the plan on the bench with random coins: the last result of a party; -1 where the run is refused. */
static inline int64_t result_on_bench(size_t plan_len, unsigned party, const uint8_t *figures, size_t figures_len)
{
    static uint8_t coins[BYTES(32768)], view[BYTES(32768)];
    uint16_t set = (uint16_t)(1u << (party - 1));
    size_t coins_len = (size_t)POOL_VALUE(pool_run_size(plan, plan_len, set, POOL_RUN_COINS));
    size_t view_len = (size_t)POOL_VALUE(pool_run_size(plan, plan_len, set, POOL_RUN_VIEW));
    for (size_t i = 0; i < coins_len; i += BYTES(1))
        put(coins + i, below(get_field(plan, PRIME)));
    uint64_t answer = pool_bench(plan, plan_len, set, figures, figures_len, coins, coins_len, NO_TRIPLES, view, view_len);
    return POOL_REFUSAL(answer) ? -1 : (int64_t)get(view + view_len - BYTES(1));
}

#endif
