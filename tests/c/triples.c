/* Work done before the shift: plan K with its product by a triple, its preparing run and the matching over both, with the worked numbers; what a call does
 * with triples, and what it refuses; as many as a plan may have; random plans with the plans that prepare them. */
#include "runs.h"

enum { SEAT_3 = 4, SEATS = 3, LIST = 17, STATE = BYTES(5) };

static struct run k, early;
static const unsigned triples[9] = {1, 8, 8, 7, 1, 3, 2, 5, 9};
static const unsigned list[LIST] = {1, 2, 3, 4, 5, 6, 1, 2, 3, 4, 5, 6, 7, 8, 9, 2, 3};

static void listed(const char *what, const uint8_t *got, const unsigned *want, unsigned count)
{
    uint8_t bytes[BYTES(64)];
    put_list(bytes, want, count);
    expect_bytes(what, got, bytes, BYTES(count));
}

/* K and its preparing plan, as files of these versions, with their worked numbers. */
static void make_k(unsigned version, unsigned before)
{
    uint8_t first[64];
    plan_spending(first);
    k.plan_len = in_version(version, k.plan, first, (const unsigned[]){1, 2, 3});
    put_list(k.figures, (const unsigned[]){4, 5}, 2);
    put_list(k.coins, list + 15, 2);
    put_list(k.triples, triples, 9);
    k.figures_len = k.coins_len = BYTES(2);
    k.triples_len = BYTES(9);
    early.plan_len = preparing_in(before, early.plan, first);
    put_list(early.figures, list, 6);
    put_list(early.coins, list + 6, 9);
    early.figures_len = BYTES(6);
    early.coins_len = BYTES(9);
    early.triples_len = 0;
}

static size_t seat_size(const struct run *r, unsigned seat, unsigned call, unsigned what)
{
    return (size_t)POOL_VALUE(pool_seat_size(r->plan, r->plan_len, (uint16_t)seat, (uint16_t)call, (uint16_t)what));
}

/* ---- sizes */

static void sizes(void)
{
    make_k(1, 1);
    hold("K's calls", POOL_VALUE(pool_calls(k.plan, k.plan_len)) == 4);
    hold("the preparing plan's calls", POOL_VALUE(pool_calls(early.plan, early.plan_len)) == 6);
    for (unsigned seat = 1; seat <= SEATS; seat++) {
        hold("a seat's triples", seat_size(&k, seat, 0, POOL_SEAT_TRIPLES) == BYTES(3) && seat_size(&k, seat, 3, POOL_SEAT_TRIPLES) == BYTES(3));
        hold("the preparing plan has none", seat_size(&early, seat, 0, POOL_SEAT_TRIPLES) == 0);
        hold("a state but its first number is as long", seat_size(&early, seat, 0, POOL_SEAT_STATE) - BYTES(1) == seat_size(&k, seat, 0, POOL_SEAT_TRIPLES));
        hold("no list 6", seat_size(&k, seat, 0, 6) == 0);
        hold("openings go to all", seat_size(&k, seat, 1, POOL_SEAT_OUT) == BYTES(6) && seat_size(&k, seat, 2, POOL_SEAT_MAIL) == BYTES(6));
        hold("no results", seat_size(&early, seat, 5, POOL_SEAT_OUT) == 0 && seat_size(&early, seat, 5, POOL_SEAT_MAIL) == 0);
    }
    hold("coins of inputs alone", run_bytes(&k, 0, POOL_RUN_COINS) == BYTES(2));
    hold("all triples", run_bytes(&k, 0, POOL_RUN_TRIPLES) == BYTES(9) && run_bytes(&early, 0, POOL_RUN_TRIPLES) == 0);
    hold("seat 3's view", run_bytes(&k, SEAT_3, POOL_RUN_VIEW) == BYTES(2 + 6 + 3 + 1));
    hold("no list 4", run_bytes(&k, 0, 4) == 0);
    hold("a set of two", POOL_REFUSAL(pool_run_size(k.plan, k.plan_len, 3, POOL_RUN_TRIPLES)) == 9);
}

/* ---- the worked run */

static void worked(unsigned version, unsigned before)
{
    static struct seats s;
    uint8_t view[BYTES(12)], zeros[BYTES(9)] = {0}, lent[BYTES(9)];
    make_k(version, before);
    expect("the preparing plan passes", pool_plan_check(early.plan, early.plan_len), 0, 0);
    if (before != MASKING) {
        apart(&early, &s);
        for (unsigned i = 0; i < SEATS; i++)
            listed("a finished state has the seat's triples", s.state[i] + BYTES(1), triples + 3 * i, 3);
    }
    put_list(lent, triples, 9);
    uint64_t answer = pool_bench(k.plan, k.plan_len, SEAT_3, k.figures, BYTES(2), k.coins, BYTES(2), lent, BYTES(9), view, sizeof view);
    expect("K runs", POOL_REFUSAL(answer), 0, 0);
    hold("27 elements", POOL_VALUE(answer) == 27);
    listed("seat 3's view", view, (const unsigned[]){10, 3, 5, 0, 1, 10, 8, 9, 6, 10, 3, 2}, 12);
    expect_bytes("the bench spends the triples", lent, zeros, sizeof lent);
    apart(&k, &s);
    listed("seat 1's wires", s.state[0], (const unsigned[]){4, 6, 8, 0, 6}, 5);
    listed("seat 2's wires", s.state[1], (const unsigned[]){4, 8, 0, 2, 10}, 5);
    listed("seat 3's wires", s.state[2], (const unsigned[]){4, 10, 3, 4, 3}, 5);
    listed("the result", s.written[2], (const unsigned[]){2}, 1);
    for (unsigned i = 0; i < SEATS; i++)
        expect_bytes("a seat's triples are spent", s.triples[i], zeros, BYTES(3));
}

static void stored(void)
{
    uint8_t record[BYTES(6 + 36)], lent[BYTES(9)], zeros[BYTES(9)] = {0}, body[BYTES(12)];
    make_k(1, 1);
    size_t size = (size_t)POOL_VALUE(pool_record_size(k.plan, k.plan_len));
    hold("K's record has no triples", size == 3 * POOL_RECORD_ENTRY + BYTES(10 + 10 + 12) && size <= sizeof record);
    put_list(lent, triples, 9);
    expect("K is stored", pool_record(k.plan, k.plan_len, k.figures, BYTES(2), k.coins, BYTES(2), lent, BYTES(9), record, size), 0, 0);
    expect_bytes("what stores a run spends the triples", lent, zeros, sizeof lent);
    expect("seat 3's body", pool_record_read_seat(k.plan, k.plan_len, record, size, 3, body, sizeof body), 0, 0);
    listed("seat 3's body", body, (const unsigned[]){10, 3, 5, 0, 1, 10, 8, 9, 6, 10, 3, 2}, 12);
    put_list(lent, triples, 9);
    put(lent + BYTES(8), 10);
    expect("it refuses 20", pool_record(k.plan, k.plan_len, k.figures, BYTES(2), k.coins, BYTES(2), lent, BYTES(9), record, size), 20, 3);
    put_list(zeros, triples, 8);
    put(zeros + BYTES(8), 10);
    expect_bytes("and keeps the triples", lent, zeros, sizeof lent);
    expect("19 comes before 20", pool_record(k.plan, k.plan_len, k.figures, BYTES(2), k.coins, BYTES(2), lent, BYTES(9), record, size - 1), 19, 0);
    expect("29 comes before 19", pool_record(k.plan, k.plan_len, k.figures, BYTES(2), k.coins, BYTES(2), lent, BYTES(8), record, size - 1), 29, 0);
    put(lent, 11);
    expect("13 comes before 29", pool_record(k.plan, k.plan_len, k.figures, BYTES(2), k.coins, BYTES(2), lent, BYTES(8), record, size - 1), 13, 0);
}

/* ---- a seat's calls, one by one */

/* A call of seat 3, which has no figure and no coin, on so many numbers of mail and room for so many. */
static uint64_t seat_3(uint8_t *own, uint8_t *state, const uint8_t *m, unsigned mails, uint8_t *o, unsigned writes)
{
    uint8_t none[1] = {0};
    return pool_seat_call(k.plan, k.plan_len, 3, none, 0, none, 0, own, BYTES(3), state, STATE, m, BYTES(mails), o, BYTES(writes));
}

/* Seat 3's triples go from call to call: the call that learns the wire makes zeros of them; a refused call keeps them. */
static void from_call_to_call(void)
{
    static const unsigned mails[4][6] = {{0}, {10, 3}, {5, 0, 1, 10, 8, 9}, {6, 10, 3}}, counts[4] = {0, 2, 6, 3}, writes[4] = {0, 6, 1, 1};
    static const unsigned states[4][5] = {{1, 0, 0, 0, 0}, {2, 10, 3, 0, 0}, {3, 10, 3, 4, 3}, {4, 10, 3, 4, 3}};
    static const unsigned written[4][6] = {{0}, {8, 9, 8, 9, 8, 9}, {3}, {2}};
    uint8_t state[STATE] = {0}, own[BYTES(3)], m[BYTES(6)], o[BYTES(6) + 4] = {0}, kept[STATE + BYTES(3)];
    make_k(1, 1);
    put_list(own, triples + 6, 3);
    for (unsigned call = 0; call < 4; call++) {
        put_list(m, mails[call], counts[call]);
        memcpy(kept, state, STATE);
        memcpy(kept + STATE, own, sizeof own);
        expect("a buffer that is long", seat_3(own, state, m, counts[call], o, writes[call] + 1), 19, 0);
        if (counts[call]) {
            put(m, 11);
            expect("mail of p", seat_3(own, state, m, counts[call], o, writes[call]), 18, 0);
            put(m, mails[call][0]);
        }
        expect_bytes("a refused call keeps the state", state, kept, STATE);
        expect_bytes("a refused call keeps the triples", own, kept + STATE, sizeof own);
        expect("seat 3's call", seat_3(own, state, m, counts[call], o, writes[call]), 0, 0);
        listed("its state", state, states[call], 5);
        listed("what it writes", o, written[call], writes[call]);
        listed("its triples", own, call < 2 ? triples + 6 : (const unsigned[]){0, 0, 0}, 3);
    }
    expect("a finished seat", seat_3(own, state, m, 0, o, 0), 16, 0);
}

/* Of two triples the call that learns the first one's wire keeps the second, and of a square both factors are one wire. */
static void one_by_one(void)
{
    static struct run r;
    static struct seats s;
    r.plan_len = contents(r.plan, 3, 1, 101, 4, 3);
    gate(r.plan, 0, 1, 1, 0);
    gate(r.plan, 1, 7, 0, 0);
    gate(r.plan, 2, 4, 1, 5);
    gate(r.plan, 3, 7, 2, 1);
    for (unsigned o = 0; o < 3; o++)
        out(r.plan, 4, o, o + 1, 3);
    any_lists(&r);
    unsigned x = get(r.figures), want = (x * x + 5) % 101 * (x * x % 101) % 101;
    apart(&r, &s);
    /* call 2 is the one that learns wire 1; of each seat's call stand its triples, its state and what it wrote */
    size_t at = 0;
    for (unsigned i = 0; i < 3 * s.calls; i++) {
        unsigned call = i / 3;
        for (unsigned j = 0; j < 6; j++) {
            unsigned spent = call >= 2 + j / 3;
            hold("spent ones are zero, others are kept", get(s.all + at + BYTES(j)) == (spent ? 0 : get(r.triples + BYTES(6 * (i % 3) + j))));
        }
        at += s.triples_len + s.state_len + s.out[call][i % 3];
    }
    for (unsigned i = 0; i < 3; i++)
        hold("a product of products", get(s.written[i]) == want);
}

/* ---- refusals */

/* A call of fresh seat 3 on so many bytes of triples. */
static uint64_t lend_triples(const unsigned *numbers, size_t len, size_t state_len)
{
    uint8_t own[BYTES(5)] = {0}, kept[BYTES(5)], state[STATE] = {0}, zeros[STATE] = {0}, o[1] = {0};
    put_list(own, numbers, 5);
    memcpy(kept, own, sizeof own);
    uint64_t answer = pool_seat_call(k.plan, k.plan_len, 3, o, 0, o, 0, own, len, state, state_len, o, 0, o, 0);
    expect_bytes("the triples stay", own, kept, sizeof own);
    if (POOL_REFUSAL(answer))
        expect_bytes("so does the state", state, zeros, STATE);
    return answer;
}

static void refusals(void)
{
    static const unsigned right[5] = {2, 5, 9, 10, 10}, wrong[5] = {2, 5, 11, 12, 13}, last[5] = {2, 5, 9, 10, 11};
    uint8_t o[BYTES(6)] = {0}, lent[BYTES(10)], view[BYTES(12)];
    make_k(1, 1);
    expect("fresh seat 3", lend_triples(right, BYTES(3), STATE), 0, 0);
    expect("a number of p", lend_triples(wrong, BYTES(3), STATE), 13, 2);
    expect("13 comes before 29", lend_triples(wrong, BYTES(4), STATE), 13, 2);
    expect("13 looks at numbers too many", lend_triples(last, BYTES(5), STATE), 13, 4);
    expect("13 looks at whole numbers", lend_triples(wrong, BYTES(2) + 3, STATE), 29, 0);
    for (size_t len = 0; len <= BYTES(5) - 1; len++)
        if (len != BYTES(3))
            expect("another count", lend_triples(right, len, STATE - 1), 29, 0);
    expect("29 comes before 14", lend_triples(right, BYTES(2), STATE - 1), 29, 0);
    expect("14 after it", lend_triples(right, BYTES(3), STATE - 1), 14, 0);
    memcpy(lent, k.coins, BYTES(2));
    put(lent, 11);
    expect("a coin of p comes before a triple of p",
        pool_seat_call(k.plan, k.plan_len, 1, k.figures, BYTES(1), lent, BYTES(1), lent + BYTES(1), BYTES(3), o, STATE, lent, 0, lent, 0), 13, 0);
    expect("12 comes before 13", pool_seat_call(k.plan, k.plan_len, 1, k.figures, BYTES(1), lent, 0, lent, BYTES(1), o, STATE, lent, 0, lent, 0), 12, 0);

    put_list(lent, triples, 9);
    expect("a triple too few", pool_bench(k.plan, k.plan_len, SEAT_3, k.figures, BYTES(2), k.coins, BYTES(2), lent, BYTES(8), view, sizeof view), 29, 0);
    expect("none", pool_bench(k.plan, k.plan_len, SEAT_3, k.figures, BYTES(2), k.coins, BYTES(2), NO_TRIPLES, view, sizeof view), 29, 0);
    expect("29 comes before 19", pool_bench(k.plan, k.plan_len, SEAT_3, k.figures, BYTES(2), k.coins, BYTES(2), lent, BYTES(8), view, 0), 29, 0);
    put(lent + BYTES(7), 11);
    expect("a triple of p", pool_bench(k.plan, k.plan_len, SEAT_3, k.figures, BYTES(2), k.coins, BYTES(2), lent, BYTES(8), view, 0), 13, 7);
    put_list(lent, triples, 9);
    put(lent + BYTES(8), 10);
    for (unsigned set = 0; set <= SEAT_3; set += SEAT_3) {
        size_t len = run_bytes(&k, set, POOL_RUN_VIEW);
        expect("one added to seat 3's c", pool_bench(k.plan, k.plan_len, (uint16_t)set, k.figures, BYTES(2), k.coins, BYTES(2), lent, BYTES(9), view, len), 20, 3);
        hold("a refused bench keeps the triples", get(lent + BYTES(8)) == 10 && get(lent) == 1);
    }
    expect("19 comes before 20", pool_bench(k.plan, k.plan_len, SEAT_3, k.figures, BYTES(2), k.coins, BYTES(2), lent, BYTES(9), view, 0), 19, 0);

    /* a plan without kind 7 has no triples */
    uint8_t plan[64];
    size_t len = plan_k(plan);
    put_list(lent, (const unsigned[]){2, 3, 1, 5, 7}, 5);
    expect("triples that nothing spends", pool_bench(plan, len, 0, k.figures, BYTES(2), lent, BYTES(5), lent + BYTES(5), BYTES(1), view, 0), 29, 0);
    put(lent + BYTES(5), 11);
    expect("of p", pool_bench(plan, len, 0, k.figures, BYTES(2), lent, BYTES(5), lent + BYTES(5), BYTES(1), view, 0), 13, 0);
    expect("matched alone", pool_match(k.plan, k.plan_len, SEAT_3, k.figures, BYTES(2), k.figures, BYTES(2), k.coins, BYTES(2), o, 0), 29, 0);
    expect("not counted", pool_count_size(k.plan, k.plan_len, SEAT_3), 30, 0);
    expect("not counted", pool_count(k.plan, k.plan_len, SEAT_3, k.figures, BYTES(2), o, 0, view, 0), 30, 0);
}

/* ---- plans */

static void plans(void)
{
    static uint8_t plan[MOST_PLAN];
    size_t len;
    for (unsigned version = 1; version <= VERSIONS; version++) {
        for (unsigned count = 341; count <= 342; count++) {
            len = contents_in(version, plan, 3, 1, 11, count + 2, 0);
            gate(plan, 0, 1, 1, 0);
            for (unsigned g = 1; g <= count; g++)
                gate(plan, g, 7, 0, g - 1);
            gate(plan, count + 1, 2, 0, count);
            expect("341 triples pass, and no outs; a 342nd does not", pool_plan_check(plan, len), count > 341 ? 7 : 0, count > 341 ? 342 : 0);
        }
        gate(plan, 100, 7, 100, 0);
        expect("a wire that is not below", pool_plan_check(plan, len), 7, 100);
        gate(plan, 100, 7, 0, 100);
        expect("the other wire", pool_plan_check(plan, len), 7, 100);
        len = contents_in(version, plan, 4, 2, 11, 2, 0);
        gate(plan, 0, 1, 1, 0);
        gate(plan, 1, 7, 0, 0);
        expect("no majority", pool_plan_check(plan, len), 25, 0);
        gate(plan, 1, 8, 0, 0);
        expect("kind 8", pool_plan_check(plan, len), 7, 1);
        gate(plan, 1, 7, 0, 0);
        gate_place(plan, 1)[1] = 1;
        expect("a second byte", pool_plan_check(plan, len), 7, 1);
        len = contents_in(version, plan, 3, 1, 11, 2, 65);
        expect("65 outs", pool_plan_check(plan, len), 6, 0);
        len = contents_in(version, plan, 3, 1, 11, 0, 0);
        expect("no gate", pool_plan_check(plan, len), 6, 0);
    }
    /* the most triples have a preparing plan, which has almost the most gates */
    len = contents(plan, 3, 1, 11, 342, 0);
    gate(plan, 0, 1, 1, 0);
    for (unsigned g = 1; g < 342; g++)
        gate(plan, g, 7, 0, g - 1);
    static uint8_t preparing[MOST_PLAN];
    size_t early_len = preparing_in(1, preparing, plan);
    expect("it passes", pool_plan_check(preparing, early_len), 0, 0);
    hold("its calls", POOL_VALUE(pool_calls(preparing, early_len)) == 3 * 341 + 3);
    hold("the calls of the plan", POOL_VALUE(pool_calls(plan, len)) == 344);
    hold("a seat's triples", POOL_VALUE(pool_seat_size(plan, len, 1, 0, POOL_SEAT_TRIPLES)) == BYTES(1023));
    hold("all triples", POOL_VALUE(pool_run_size(plan, len, 0, POOL_RUN_TRIPLES)) == BYTES(3 * 1023));
}

/* A plan without outs runs: nobody gets anything. */
static void without_outs(void)
{
    static struct run r;
    static struct seats s;
    for (unsigned version = 1; version <= VERSIONS; version++) {
        r.plan_len = contents_in(version, r.plan, 3, 1, 11, 3, 0);
        gate(r.plan, 0, 1, 2, 0);
        gate(r.plan, 1, 5, 0, 0);
        gate(r.plan, 2, 6, 0, 0);
        any_lists(&r);
        apart(&r, &s);
        hold("no results", s.out[s.calls - 1][0] + s.out[s.calls - 1][1] + s.out[s.calls - 1][2] == 0);
    }
}

/* ---- the matching over both runs */

static uint64_t match(const unsigned *second, const uint8_t *numbers, size_t len, uint8_t *matched, size_t room)
{
    uint8_t figures[BYTES(2)];
    put_list(figures, second, 2);
    return pool_match_prepared(early.plan, early.plan_len, k.plan, k.plan_len, SEAT_3, k.figures, BYTES(2), figures, BYTES(2), numbers, len, matched, room);
}

static void worked_matching(void)
{
    uint8_t numbers[BYTES(LIST + 1)] = {0}, matched[BYTES(LIST)] = {0};
    for (unsigned version = 1; version <= VERSIONS; version++) {
        make_k(version, 1 + version % 3);
        put_list(numbers, list, LIST);
        expect("figures 1, 1 are matched", match((const unsigned[]){1, 1}, numbers, BYTES(LIST), matched, BYTES(LIST)), 0, 0);
        listed("the worked list", matched, (const unsigned[]){9, 2, 3, 0, 5, 6, 2, 2, 3, 9, 5, 6, 9, 0, 9, 3, 8}, LIST);
    }
}

static void matching_refused(void)
{
    static const unsigned one[2] = {1, 1};
    uint8_t numbers[BYTES(LIST + 1)] = {0}, matched[BYTES(LIST)] = {0};
    make_k(1, 1);
    put_list(numbers, list, LIST);
    expect("a list too short", match(one, numbers, BYTES(LIST - 1), matched, BYTES(LIST)), 12, 0);
    expect("a list too long", match(one, numbers, BYTES(LIST + 1), matched, BYTES(LIST)), 12, 0);
    for (unsigned i = 0; i < LIST; i++) {
        put(numbers + BYTES(i), 11);
        expect("a number of p", match(one, numbers, BYTES(LIST), matched, 0), 13, i);
        put(numbers + BYTES(i), list[i]);
    }
    expect("a buffer too short", match(one, numbers, BYTES(LIST), matched, BYTES(LIST - 1)), 19, 0);
    expect("another result", match((const unsigned[]){1, 2}, numbers, BYTES(LIST), matched, BYTES(LIST)), 22, 0);
    expect("a figure of p", match((const unsigned[]){1, 11}, numbers, BYTES(LIST), matched, BYTES(LIST)), 11, 1);

    /* a preparing plan that is not the main plan's */
    static const struct {
        unsigned gate, kind, a, b;
    } others[] = {{2, 5, 1, 0}, {2, 5, 0, 0}, {2, 2, 0, 1}, {0, 1, 1, 0}, {1, 1, 1, 0}};
    for (unsigned i = 0; i < sizeof others / sizeof *others; i++) {
        make_k(1, 1);
        gate(early.plan, others[i].gate, others[i].kind, others[i].a, others[i].b);
        expect("it passes", pool_plan_check(early.plan, early.plan_len), 0, 0);
        size_t own = run_bytes(&early, 0, POOL_RUN_FIGURES) + run_bytes(&early, 0, POOL_RUN_COINS) + BYTES(2);
        expect("other gates", match(one, numbers, own, matched, own), 29, 0);
    }
    make_k(1, 1);
    early.plan_len = contents(early.plan, 3, 1, 11, 3, 1);
    out(early.plan, 3, 0, 1, 2);
    expect("an out", match(one, numbers, BYTES(LIST), matched, BYTES(LIST)), 29, 0);
    make_k(1, 2);
    point(early.plan, 0, 4);
    expect("another point", match(one, numbers, BYTES(LIST), matched, BYTES(LIST)), 29, 0);
    make_k(1, 1);
    early.plan_len = contents(early.plan, 4, 1, 11, 3, 0);
    gate(early.plan, 2, 5, 0, 1);
    size_t own = run_bytes(&early, 0, POOL_RUN_FIGURES) + run_bytes(&early, 0, POOL_RUN_COINS) + BYTES(2);
    hold("its list is longer", own == BYTES(8 + 11 + 2));
    uint8_t longer[BYTES(21)] = {0};
    expect("another n", match(one, longer, own, matched, 0), 29, 0);
    early.plan_len = contents(early.plan, 3, 0, 11, 3, 0);
    expect("another t, which the set is over", match(one, longer, BYTES(6 + 2), matched, 0), 9, 0);
    put_list(longer, list, 8);
    expect("another t", pool_match_prepared(early.plan, early.plan_len, k.plan, k.plan_len, 0, k.figures, BYTES(2), k.figures, BYTES(2), longer,
        BYTES(8), matched, 0), 29, 0);
    make_k(1, 1);
    put_field(early.plan, PRIME, 13);
    put(numbers, 12);
    expect("another prime, and 13 goes by it", match(one, numbers, BYTES(LIST), matched, 0), 29, 0);
    put(numbers + BYTES(15), 11);
    expect("the main coins go by the main plan's", match(one, numbers, BYTES(LIST), matched, 0), 13, 15);
    put_list(numbers, list, LIST);
    make_k(1, 1);
    gate(k.plan, 2, 2, 0, 1);
    expect("a main plan that spends nothing", match((const unsigned[]){4, 5}, numbers, BYTES(LIST), matched, BYTES(LIST)), 29, 0);
    /* each number is tried on the preparing plan, then on the main one */
    make_k(1, 1);
    k.plan[4] = 5;
    gate(early.plan, 2, 8, 0, 1);
    expect("the main plan's 2 comes before the preparing plan's 7", match(one, numbers, BYTES(LIST), matched, BYTES(LIST)), 2, 0);
    make_k(1, 1);
    gate(early.plan, 2, 8, 0, 1);
    gate(k.plan, 1, 8, 0, 1);
    expect("the preparing plan's 7 comes first", match(one, numbers, BYTES(LIST), matched, BYTES(LIST)), 7, 2);
}

/* ---- random plans */

/* The preparing run by its seats' own calls: their finished states are the triples of the main plan. */
static void prepare(struct run *before, const struct run *r, uint8_t *made)
{
    static struct seats s;
    apart(before, &s);
    size_t own = BYTES(3 * spends_of(r->plan));
    for (unsigned i = 0; i < r->plan[5]; i++)
        memcpy(made + own * i, s.state[i] + BYTES(1), own);
}

/* Triples of no preparing run: the bench refuses where a seat's last call does. */
static void wrong_triples(const struct run *r, struct seats *s)
{
    static uint8_t next[15][MOST_WRITTEN], view[MOST_VIEW];
    static struct run wrong;
    unsigned p = get_field(r->plan, PRIME), seats = 0;
    uint64_t first = 0;
    wrong = *r;
    put(wrong.triples + BYTES(below((unsigned)(r->triples_len / BYTES(1)))), below(p));
    refresh(&wrong, s);
    for (unsigned i = 0; i < s->n * s->calls; i++) {
        uint64_t answer = seat_call(r, s, i % s->n, i / s->n, next[i % s->n]);
        if (i % s->n == s->n - 1)
            memcpy(s->written, next, sizeof next);
        seats += answer != 0;
        first = answer ? answer : first;
        hold("refused in the last call alone", !answer || (i / s->n + 1 == s->calls && POOL_REFUSAL(answer) == 20));
    }
    uint64_t answer = bench(&wrong, 0, view);
    hold("the bench refuses where a seat does", (seats > 0) == (POOL_REFUSAL(answer) == 20));
    if (seats == 1)
        hold("it tells the same seat", answer == first);
}

static void matched_runs(const struct run *r, struct run *before)
{
    static uint8_t lists[2][2 * MOST_COINS], view[2][MOST_VIEW];
    static struct run second, after;
    uint16_t set = any_set(r->plan);
    size_t drawn = before->figures_len + before->coins_len, len = drawn + r->coins_len;
    second = *r;
    after = *before;
    if (r->figures_len)
        put(second.figures + BYTES(below((unsigned)(r->figures_len / BYTES(1)))), below(get_field(r->plan, PRIME)));
    memcpy(lists[0], before->figures, before->figures_len);
    memcpy(lists[0] + before->figures_len, before->coins, before->coins_len);
    memcpy(lists[0] + drawn, r->coins, r->coins_len);
    uint64_t answer = pool_match_prepared(before->plan, before->plan_len, r->plan, r->plan_len, set, r->figures, r->figures_len, second.figures, r->figures_len,
        lists[0], len, lists[1], len);
    hold("matched, or other figures or results of the set", answer == 0 || POOL_REFUSAL(answer) > 20);
    if (answer)
        return;
    memcpy(after.figures, lists[1], before->figures_len);
    memcpy(after.coins, lists[1] + before->figures_len, before->coins_len);
    memcpy(second.coins, lists[1] + drawn, r->coins_len);
    prepare(&after, r, second.triples);
    hold("both preparing runs", !POOL_REFUSAL(bench(before, set, view[0])) && !POOL_REFUSAL(bench(&after, set, view[1])));
    expect_bytes("one view of the preparing run", view[0], view[1], run_bytes(before, set, POOL_RUN_VIEW));
    hold("both main runs", !POOL_REFUSAL(bench(r, set, view[0])) && !POOL_REFUSAL(bench(&second, set, view[1])));
    expect_bytes("one view of the main run", view[0], view[1], run_bytes(r, set, POOL_RUN_VIEW));
}

static void random_plans(unsigned count)
{
    static struct run r, before;
    static struct seats s;
    unsigned points[15];
    for (unsigned i = 0; i < count; i++) {
        unsigned version = 1 + i % VERSIONS, p = version > 2 && below(2) ? MOST_PRIME : small_prime();
        do
            any_plan(&r, version, p);
        while (r.plan[6] == 0 || spends_of(r.plan) == 0 || spends_of(r.plan) > MOST_GATES / 3);
        any_points(points, r.plan[5], p);
        for (unsigned seat = 0; version > 1 && seat < r.plan[5]; seat++)
            point(r.plan, seat, points[seat]);
        before.plan_len = preparing_in(version > 1 ? version : 1 + below(3) % (p < 65536 ? 3 : 1), before.plan, r.plan);
        any_lists(&r);
        any_lists(&before);
        prepare(&before, &r, r.triples);
        apart(&r, &s);
        matched_runs(&r, &before);
        wrong_triples(&r, &s);
    }
}

int main(void)
{
    sizes();
    for (unsigned version = 1; version <= VERSIONS; version++)
        for (unsigned before = 1; before <= VERSIONS; before++)
            worked(version, before);
    stored();
    from_call_to_call();
    one_by_one();
    refusals();
    plans();
    without_outs();
    worked_matching();
    matching_refused();
    random_plans(120);
    printf("%d passed, %d failed\n", passed, failed);
    return failed != 0;
}
