/* Each call on a thread that has the stack that pool.h states, and no more but a thread's own start: below it stands a page that nothing may touch.
 * The stack is painted first, and what is painted over afterwards is at most what pool.h states. The plans are the largest there are. */
#define _GNU_SOURCE
#include <limits.h>
#include <pthread.h>
#include <stdlib.h>
#include <sys/mman.h>

#include "plans.h"

enum { GATES = 1024, OUTS = 64, PAGE = 4096, PAINT = 0xa5 };

static uint8_t plan[MOST_PLAN], figures[BYTES(15 * GATES)], coins[BYTES(450000)], buffer[BYTES(1100000)];
static uint8_t stored[BYTES(1100000)], triples[BYTES(3 * 341 * 15 + 1)];
static uint8_t state[BYTES(2 * GATES)], mail[BYTES(20000)], written[BYTES(20000)];
static size_t plan_len;

/* n inputs of party 1, then multiplies, or adds where there is no majority, or random wires, each second one in the place of a multiply; or the most
 * triples, and multiplies after them. All outs go to party 1. The prime is the largest of the version. */
enum made { PRODUCTS, DRAWS, TRIPLES };

static void largest(unsigned version, unsigned n, unsigned t, enum made made)
{
    unsigned worked = 2 * t < n ? 5 : 2;
    plan_len = contents_in(version, plan, n, t, version < 3 ? 65521 : MOST_PRIME, GATES, OUTS);
    for (unsigned g = 0; g < GATES; g++)
        if (made == TRIPLES && g >= n && g < n + 341 && worked == 5)
            gate(plan, g, 7, g - 1, g / 2);
        else if (made == DRAWS && g >= n && (g % 2 || worked == 2))
            gate(plan, g, 6, 0, 0);
        else
            gate(plan, g, g < n ? 1 : worked, g < n ? 1 : g - 1, g < n ? 0 : g / 2);
    for (unsigned o = 0; o < OUTS; o++)
        out(plan, GATES, o, 1, GATES - 1);
}

static size_t run_size(uint16_t set, uint16_t what)
{
    return POOL_VALUE(pool_run_size(plan, plan_len, set, what));
}

static size_t seat_size(uint16_t call, uint16_t what)
{
    return POOL_VALUE(pool_seat_size(plan, plan_len, 1, call, what));
}

/* The last t parties: a matching that moves every coin of the others. */
static uint16_t last_parties(void)
{
    return (uint16_t)(((1u << plan[6]) - 1) << (plan[5] - plan[6]));
}

static uint64_t bench(void)
{
    uint16_t set = last_parties();
    uint64_t answer = pool_bench(plan, plan_len, set, figures, run_size(set, 0), coins, run_size(set, 1), triples, run_size(set, 3), buffer, run_size(set, 2));
    return POOL_REFUSAL(answer);
}

static uint64_t record(void)
{
    return pool_record(plan, plan_len, figures, run_size(0, 0), coins, run_size(0, 1), triples, run_size(0, 3), stored, POOL_VALUE(pool_record_size(plan, plan_len)));
}

/* Both readers of the record that was written last. */
static uint64_t read_record(void)
{
    size_t size = POOL_VALUE(pool_record_size(plan, plan_len)), entries = POOL_RECORD_ENTRY * plan[5];
    uint64_t answer = pool_record_read(plan, plan_len, stored, size, buffer, size - entries);
    for (uint16_t seat = 1; seat <= plan[5] && !answer; seat++)
        answer = pool_record_read_seat(plan, plan_len, stored, size, seat, buffer, get(stored + POOL_RECORD_ENTRY * (seat - 1) + BYTES(1)));
    return answer;
}

/* Whether the last parties' views are not counted: where the others have coins of products, or a wire is random. */
static int many_settings(void)
{
    return gate_place(plan, GATES - 1)[0] == 6 || spends_of(plan) || (plan[6] && 2 * plan[6] < plan[5]);
}

/* The views of parties that have all coins, of which there is one setting: the last t parties, where all inputs are theirs and nothing is
 * multiplied; or nobody, where there are no coins. Of other plans there are too many settings. */
static uint64_t count(void)
{
    uint16_t set = last_parties();
    unsigned refusal = many_settings() ? 30 : 0;
    for (unsigned g = 0; g < plan[5]; g++)
        gate(plan, g, 1, plan[5], 0);
    uint64_t size = pool_count_size(plan, plan_len, set);
    size_t own = 0;
    for (unsigned i = 0; i < plan[5]; i++)
        own += set >> i & 1 ? POOL_VALUE(pool_seat_size(plan, plan_len, (uint16_t)(i + 1), 0, POOL_SEAT_COINS)) : 0;
    uint64_t answer = pool_count(plan, plan_len, set, figures, run_size(set, 0), coins, own, buffer, refusal ? 0 : POOL_VALUE(size));
    return POOL_REFUSAL(size) - refusal + POOL_REFUSAL(answer) - refusal;
}

/* 59,049 settings: ten inputs of party 1, the last of them for party 2. */
static uint64_t count_settings(void)
{
    static uint8_t rows[BYTES(14 * 59049)];
    size_t len = contents(plan, 2, 1, 3, 10, 1);
    for (unsigned g = 0; g < 10; g++)
        gate(plan, g, 1, 1, 0);
    out(plan, 10, 0, 2, 9);
    return POOL_VALUE(pool_count_size(plan, len, 2)) - sizeof rows + pool_count(plan, len, 2, figures, BYTES(10), coins, 0, rows, sizeof rows);
}

static uint64_t match(void)
{
    uint16_t set = last_parties();
    static uint8_t second[sizeof figures];
    put(second, 7);
    uint64_t answer = pool_match(plan, plan_len, set, figures, run_size(set, 0), second, run_size(set, 0), coins, run_size(set, 1), buffer, run_size(set, 1));
    return answer - (spends_of(plan) ? 29 : 0);
}

/* The main plan with its preparing one, in the same version. */
static uint64_t match_prepared(void)
{
    static uint8_t second[sizeof figures], preparing[MOST_PLAN];
    uint16_t set = last_parties();
    size_t len = preparing_in(plan[4], preparing, plan);
    if (!spends_of(plan))
        return 0;
    size_t drawn = POOL_VALUE(pool_run_size(preparing, len, 0, 0)) + POOL_VALUE(pool_run_size(preparing, len, 0, 1)) + run_size(0, 1);
    put(second, 7);
    return pool_match_prepared(preparing, len, plan, plan_len, set, figures, run_size(set, 0), second, run_size(set, 0), coins, drawn, buffer, drawn);
}

static uint64_t first_calls(void)
{
    uint64_t answer = 0;
    memset(state, 0, sizeof state);
    for (uint16_t call = 0; call < 4 && call < POOL_VALUE(pool_calls(plan, plan_len)) && !answer; call++)
        answer = pool_seat_call(plan, plan_len, 1, figures, seat_size(call, 0), coins, seat_size(call, 1), triples, seat_size(call, 5), state,
            seat_size(call, 2), mail, seat_size(call, 3), written, seat_size(call, 4));
    return answer;
}

static uint64_t last_call(void)
{
    uint16_t call = (uint16_t)(POOL_VALUE(pool_calls(plan, plan_len)) - 1);
    memset(state, 0, sizeof state);
    put(state, call);
    return pool_seat_call(plan, plan_len, 1, figures, seat_size(call, 0), coins, seat_size(call, 1), triples, seat_size(call, 5), state,
        seat_size(call, 2), mail, seat_size(call, 3), written, seat_size(call, 4));
}

static uint64_t small(void)
{
    uint64_t refusals = POOL_REFUSAL(pool_plan_check(plan, plan_len)) + POOL_REFUSAL(pool_calls(plan, plan_len));
    for (uint16_t what = 0; what < 6; what++)
        refusals += POOL_REFUSAL(pool_seat_size(plan, plan_len, 1, 1, what)) + POOL_REFUSAL(pool_run_size(plan, plan_len, 0, what));
    uint8_t parts[60];
    refusals += POOL_REFUSAL(pool_charge(plan, plan_len, 999999, parts, 4u * plan[5]));
    if (POOL_REFUSAL(pool_count_size(plan, plan_len, last_parties())) != (plan[6] || many_settings() ? 30 : 0))
        refusals++;
    return refusals;
}

/* The largest plans of versions 1 and 2; others are refused. */
static uint64_t convert(void)
{
    uint64_t size = pool_convert_size(plan, plan_len);
    if (plan[4] > 2)
        return POOL_REFUSAL(size) - 2 + POOL_REFUSAL(pool_convert(plan, plan_len, buffer, plan_len)) - 2;
    return POOL_REFUSAL(size) + pool_convert(plan, plan_len, buffer, POOL_VALUE(size));
}

/* A circuit with as many wires as a text can have, and one that makes a plan without a majority. */
static uint64_t import(void)
{
    static char text[2000000];
    size_t len = (size_t)sprintf(text, "65534 65535\n1 1\n1 1\n");
    for (unsigned g = 0; g < 65534; g++)
        len += (size_t)sprintf(text + len, "1 1 %u %u INV\n", g, g + 1);
    if (POOL_REFUSAL(pool_import_size((uint8_t *)text, len, 3, 1, 11)) != 24)
        return 99;
    len = (size_t)sprintf(text, "511 512\n1 1\n1 1\n");
    for (unsigned g = 0; g < 511; g++)
        len += (size_t)sprintf(text + len, "1 1 %u %u INV\n", g, g + 1);
    size_t size = POOL_VALUE(pool_import_size((uint8_t *)text, len, 3, 2, 11));
    uint64_t answer = pool_import((uint8_t *)text, len, 3, 2, 11, buffer, size);
    size = POOL_VALUE(pool_import_size((uint8_t *)text, len, 15, 14, MOST_PRIME));
    return answer + pool_import((uint8_t *)text, len, 15, 14, MOST_PRIME, buffer, size);
}

/* As many names as there are, the last within brackets as deep as they go; and a long sheet of which only the end is wrong. */
static uint64_t sheet(void)
{
    static char text[1000000];
    size_t len = 0;
    for (unsigned i = 0; i < 389; i++)
        len += (size_t)sprintf(text + len, "%c%u*", (int)('a' + i % 26), i / 26 + 1);
    len += (size_t)sprintf(text + len, "((((((((((((((((z15 - 2*z15))))))))))))))))");
    size_t size = POOL_VALUE(pool_sheet_size((uint8_t *)text, len, 15, 7, 17, 1));
    uint64_t answer = pool_sheet((uint8_t *)text, len, 15, 7, 17, 1, buffer, size);
    /* the same names added, which need no majority */
    for (size_t at = 0; at < len; at++)
        text[at] = text[at] == '*' ? '+' : text[at];
    size = POOL_VALUE(pool_sheet_size((uint8_t *)text, len, 15, 14, 17, 1));
    answer += pool_sheet((uint8_t *)text, len, 15, 14, 17, 1, buffer, size);
    size = POOL_VALUE(pool_sheet_size((uint8_t *)text, len, 15, 14, MOST_PRIME, 1));
    answer += pool_sheet((uint8_t *)text, len, 15, 14, MOST_PRIME, 1, buffer, size);
    while (len < sizeof text - 100)
        len += (size_t)sprintf(text + len, "+((((((((((((((((a1))))))))))))))))");
    len += (size_t)sprintf(text + len, "+(((((((((((((((((a1)))))))))))))))))");
    return answer ? answer : POOL_REFUSAL(pool_sheet_size((uint8_t *)text, len, 15, 7, 17, 1)) - 27;
}

struct job {
    uint64_t (*call)(void);
    uint8_t *floor;
    size_t used;
    uint64_t answer;
};

/* Paints what is below this function's own frame, makes the call, and looks how far down the paint is gone. */
static void *work(void *given)
{
    struct job *job = given;
    volatile uint8_t here;
    uint8_t *top = (uint8_t *)&here - 512;
    for (volatile uint8_t *at = job->floor; at < top; at++)
        *at = PAINT;
    job->answer = job->call();
    uint8_t *at = job->floor;
    while (at < top && *(volatile uint8_t *)at == PAINT)
        at++;
    job->used = (size_t)((uint8_t *)&here - at);
    return NULL;
}

static void on_stack(const char *what, uint64_t (*call)(void), size_t stated)
{
    size_t size = (stated + (size_t)PTHREAD_STACK_MIN + PAGE - 1) / PAGE * PAGE;
    uint8_t *block = mmap(NULL, size + PAGE, PROT_READ | PROT_WRITE, MAP_PRIVATE | MAP_ANONYMOUS, -1, 0);
    struct job job = {call, block + PAGE, 0, 99};
    pthread_attr_t attributes;
    pthread_t thread;
    if (block == MAP_FAILED || mprotect(block, PAGE, PROT_NONE) || pthread_attr_init(&attributes)
        || pthread_attr_setstack(&attributes, block + PAGE, size) || pthread_create(&thread, &attributes, work, &job)
        || pthread_join(thread, NULL)) {
        printf("%s: no thread\n", what);
        failed++;
        return;
    }
    munmap(block, size + PAGE);
    expect(what, job.answer, 0, 0);
    printf("%s: %zu bytes of stack, %zu stated\n", what, job.used, stated);
    if (job.used <= stated)
        passed++;
    else
        failed++;
}

/* All calls that take a plan. */
static void plan_calls(void)
{
    on_stack("pool_bench", bench, POOL_STACK_BENCH);
    on_stack("pool_record", record, POOL_STACK_BENCH);
    on_stack("the record's size and readers", read_record, POOL_STACK_SEAT);
    on_stack("pool_match", match, POOL_STACK_MATCH);
    on_stack("pool_match_prepared", match_prepared, POOL_STACK_PREPARED);
    on_stack("pool_seat_call, the first calls", first_calls, POOL_STACK_SEAT);
    on_stack("pool_seat_call, the last call", last_call, POOL_STACK_SEAT);
    on_stack("plan check, sizes and charge", small, POOL_STACK_SEAT);
    on_stack("pool_convert", convert, POOL_STACK_SEAT);
    on_stack("pool_count", count, POOL_STACK_COUNT);
}

int main(void)
{
    static const unsigned shapes[][2] = {{15, 14}, {15, 7}, {3, 1}, {1, 0}};
    for (unsigned k = 0; k < 4 * VERSIONS; k++) {
        for (enum made made = PRODUCTS; made <= TRIPLES; made++) {
            largest(1 + k / 4, shapes[k % 4][0], shapes[k % 4][1], made);
            plan_calls();
        }
    }
    on_stack("pool_count, many settings", count_settings, POOL_STACK_COUNT);
    on_stack("pool_import", import, POOL_STACK_IMPORT);
    on_stack("pool_sheet", sheet, POOL_STACK_SHEET);
    printf("%d passed, %d failed\n", passed, failed);
    return failed != 0;
}
