/* Every call on buffers of random lengths at random alignments, each in a block of its own that ends where the buffer ends: a read or write past
 * an end is an error under valgrind (tests/c/run runs it so). All calls together count as one fact: each answer is a refusal of the table, or none. */
#include <stdlib.h>

#include "plans.h"

enum { CASES = 6000 };

struct slice {
    uint8_t *block, *at;
    size_t len;
};

/* A block that ends where the slice ends, which starts at a random alignment. */
static struct slice lend(const uint8_t *from, size_t len)
{
    unsigned shift = below(8);
    struct slice s = {malloc(shift + len + (len == 0)), NULL, len};
    s.at = s.block + shift;
    for (size_t i = 0; i < len; i++)
        s.at[i] = from ? from[i] : below(3) ? 0 : (uint8_t)below(256);
    return s;
}

static void check(uint64_t answer)
{
    if (POOL_REFUSAL(answer) && !pool_refusal_sentence(POOL_REFUSAL(answer)))
        failed++;
}

/* A text, whole or cut short, now and then with another byte in it. */
static struct slice lend_text(const char *text, size_t len)
{
    size_t cut = below(4) ? len : below((unsigned)len + 1);
    struct slice s = lend((const uint8_t *)text, cut);
    if (cut && !below(3))
        s.at[below((unsigned)cut)] = (uint8_t)below(256);
    return s;
}

/* The calls that take a plan: K, or K with a random wire or a triple, whole or not, and lists of any bytes. */
static void plan_calls(const uint8_t *k, size_t k_len)
{
    static const size_t sizes[] = {0, BYTES(1), BYTES(2), BYTES(3), BYTES(5), BYTES(10), BYTES(17)};
    struct slice s[8], parts = lend(NULL, below(3) ? 12 : below(20)), converted = lend(NULL, below(3) ? 87 : below(100));
    s[0] = lend_text((const char *)k, k_len);
    for (unsigned j = 1; j < 6; j++)
        s[j] = lend(NULL, below(3) ? sizes[below(7)] : below(BYTES(25)));
    uint8_t first[64];
    s[7] = lend_text((const char *)first, preparing_in(1, first, k));
    s[6] = lend(NULL, below(3) ? BYTES((below(2) ? 3 : 9) * spends_of(k)) : below(BYTES(10)));
    if (!below(3))
        s[3].len = s[3].len > BYTES(5) ? BYTES(5) : s[3].len;
    uint16_t seat = (uint16_t)(below(4) ? below(5) : below(65536));
    check(pool_plan_check(s[0].at, s[0].len));
    check(pool_calls(s[0].at, s[0].len));
    check(pool_seat_size(s[0].at, s[0].len, seat, (uint16_t)below(6), (uint16_t)below(7)));
    check(pool_run_size(s[0].at, s[0].len, seat, (uint16_t)below(5)));
    check(pool_seat_call(s[0].at, s[0].len, seat, s[1].at, s[1].len, s[2].at, s[2].len, s[6].at, s[6].len, s[3].at, s[3].len, s[4].at, s[4].len,
        s[5].at, s[5].len));
    check(pool_bench(s[0].at, s[0].len, seat, s[1].at, s[1].len, s[2].at, s[2].len, s[6].at, s[6].len, s[3].at, s[3].len));
    check(pool_match(s[0].at, s[0].len, seat, s[1].at, s[1].len, s[2].at, s[2].len, s[4].at, s[4].len, s[5].at, s[5].len));
    check(pool_match_prepared(s[7].at, s[7].len, s[0].at, s[0].len, seat, s[1].at, s[1].len, s[2].at, s[2].len, s[4].at, s[4].len, s[5].at, s[5].len));
    check(pool_charge(s[0].at, s[0].len, below(2) ? 1000000 - below(3) : 1000000 + below(3), parts.at, parts.len));
    check(pool_convert_size(s[0].at, s[0].len));
    check(pool_convert(s[0].at, s[0].len, converted.at, converted.len));
    free(parts.block);
    free(converted.block);
    for (unsigned j = 0; j < 8; j++)
        free(s[j].block);
}

/* The calls that write or read a run record: K's, whole or not. Triples of zeros are such as a preparing run may make. */
static void record_calls(const uint8_t *k, size_t k_len)
{
    uint8_t list[BYTES(11)] = {0}, stored[256] = {0}, none[BYTES(9)] = {0};
    unsigned size = (unsigned)POOL_VALUE(pool_record_size(k, k_len)), own = (unsigned)POOL_VALUE(pool_run_size(k, k_len, 0, POOL_RUN_COINS));
    expect("K's record", pool_record(k, k_len, list, BYTES(2), list, own, none, BYTES(9 * spends_of(k)), stored, size), 0, 0);
    struct slice plan = below(4) ? lend(k, k_len) : lend_text((const char *)k, k_len), record = lend_text((const char *)stored, size);
    struct slice figures = lend(list, below(3) ? BYTES(2) : below(12)), coins = lend(list, below(3) ? own : below(sizeof list));
    struct slice to = lend(NULL, below(3) ? size : below(size + 12)), all = lend(NULL, below(3) ? size - 24 : below(size + 12));
    struct slice triples = lend(list, below(3) ? BYTES(9 * spends_of(k)) : below(sizeof list));
    struct slice body = lend(NULL, below(3) ? get(stored + BYTES(1 + 2 * below(3))) : below(80));
    uint16_t seat = (uint16_t)(below(4) ? below(5) : below(65536));
    check(pool_record_size(plan.at, plan.len));
    check(pool_record(plan.at, plan.len, figures.at, figures.len, coins.at, coins.len, triples.at, triples.len, to.at, to.len));
    check(pool_record_read(plan.at, plan.len, record.at, record.len, all.at, all.len));
    check(pool_record_read_seat(plan.at, plan.len, record.at, record.len, seat, body.at, body.len));
    struct slice lent[] = {plan, record, figures, coins, triples, to, all, body};
    for (unsigned j = 0; j < sizeof lent / sizeof *lent; j++)
        free(lent[j].block);
}

/* The counted views of two seats' sum modulo 3, whole or not. */
static void count_calls(unsigned version)
{
    uint8_t tiny[80], list[BYTES(2)] = {1, 0};
    size_t tiny_len = contents_in(version, tiny, 2, 1, 3, 3, 1);
    gate(tiny, 0, 1, 1, 0);
    gate(tiny, 1, 1, 2, 0);
    gate(tiny, 2, 2, 0, 1);
    out(tiny, 3, 0, 1, 2);
    struct slice plan = below(4) ? lend(tiny, tiny_len) : lend_text((const char *)tiny, tiny_len);
    struct slice figures = lend(list, below(4) ? BYTES(2) : below(sizeof list)), coins = lend(list, below(4) ? BYTES(1) : below(sizeof list));
    struct slice rows = lend(NULL, below(4) ? BYTES(15) : below(70));
    uint16_t set = (uint16_t)(below(4) ? 2 : below(4));
    check(pool_count_size(plan.at, plan.len, set));
    check(pool_count(plan.at, plan.len, set, figures.at, figures.len, coins.at, coins.len, rows.at, rows.len));
    struct slice lent[] = {plan, figures, coins, rows};
    for (unsigned j = 0; j < sizeof lent / sizeof *lent; j++)
        free(lent[j].block);
}

/* The calls that take a text. */
static void text_calls(unsigned p)
{
    static const char circuit[] = "3 7\n2 2 2\n1 1\n\n2 1 0 2 4 XOR\n2 1 1 3 5 AND\n2 1 4 5 6 XOR\n";
    static const char sheet[] = "2*a1 + a1*(b2 - 3)";
    uint16_t seat = (uint16_t)(below(4) ? below(5) : below(65536));
    struct slice text = lend_text(circuit, sizeof circuit - 1), plan = lend(NULL, below(3) ? (p < 65536 ? 99 : 177) : below(200));
    check(pool_import_size(text.at, text.len, 3, 1, p));
    check(pool_import(text.at, text.len, 3, 1, p, plan.at, plan.len));
    free(text.block);
    free(plan.block);
    text = lend_text(sheet, sizeof sheet - 1);
    plan = lend(NULL, below(3) ? (p < 65536 ? 87 : 157) : below(200));
    check(pool_sheet_size(text.at, text.len, 3, 1, p, seat));
    check(pool_sheet(text.at, text.len, 3, 1, p, seat, plan.at, plan.len));
    free(text.block);
    free(plan.block);
}

int main(void)
{
    uint8_t first[64], k[128], drawn[64], spending[64], other[128], third[128];
    plan_k(first);
    plan_drawn(drawn);
    plan_spending(spending);
    for (unsigned i = 0; i < CASES; i++) {
        size_t k_len = in_version(1 + i % VERSIONS, k, first, (const unsigned[]){1, 2, 3});
        size_t other_len = in_version(1 + i % VERSIONS, other, drawn, (const unsigned[]){1, 2, 3});
        size_t third_len = in_version(1 + i % VERSIONS, third, spending, (const unsigned[]){1, 2, 3});
        plan_calls(below(3) ? k : below(2) ? other : third, k_len);
        expect("a plan with a random wire", pool_plan_check(other, other_len), 0, 0);
        expect("a plan with a triple", pool_plan_check(third, third_len), 0, 0);
        record_calls(below(3) ? k : third, k_len);
        count_calls(1 + i % VERSIONS);
        text_calls(i % 2 ? 11 : MOST_PRIME);
    }
    passed = failed == 0;
    printf("%d passed, %d failed\n", passed, failed);
    return failed != 0;
}
