/* Linked into a seat in front of the library (--wrap=pool_seat_call): the first number that each of its calls sends is one too high,
 * modulo the prime, which is below 256 here. */
#include "lists.h"

uint64_t __real_pool_seat_call(const uint8_t *plan, size_t plan_len, uint16_t seat, const uint8_t *figures, size_t figures_len, const uint8_t *coins,
                               size_t coins_len, uint8_t *triples, size_t triples_len, uint8_t *state, size_t state_len, const uint8_t *mail,
                               size_t mail_len, uint8_t *out, size_t out_len);
uint64_t __wrap_pool_seat_call(const uint8_t *plan, size_t plan_len, uint16_t seat, const uint8_t *figures, size_t figures_len, const uint8_t *coins,
                               size_t coins_len, uint8_t *triples, size_t triples_len, uint8_t *state, size_t state_len, const uint8_t *mail,
                               size_t mail_len, uint8_t *out, size_t out_len);

uint64_t __wrap_pool_seat_call(const uint8_t *plan, size_t plan_len, uint16_t seat, const uint8_t *figures, size_t figures_len, const uint8_t *coins,
                               size_t coins_len, uint8_t *triples, size_t triples_len, uint8_t *state, size_t state_len, const uint8_t *mail,
                               size_t mail_len, uint8_t *out, size_t out_len)
{
    uint64_t answer = __real_pool_seat_call(plan, plan_len, seat, figures, figures_len, coins, coins_len, triples, triples_len,
                                           state, state_len, mail, mail_len, out, out_len);
    struct bytes list = {out, out_len};
    if (!POOL_REFUSAL(answer) && count_of(list) > 0)
        put_number(list, 0, (get_number(list, 0) + 1) % plan[8]);
    return answer;
}
