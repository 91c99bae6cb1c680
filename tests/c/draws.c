/* Random wires: the kind's rule, plan K with one, on the bench and by seats, lists that count draws, refusals, the record, and the most of them. */
#include "runs.h"

enum { SEATS = 3, CALLS = 5, SEAT_3 = 4, VIEW = 14, MOST_WIRES = 1024 };

static struct run k;

/* Plan K with a random wire in a version, with its figures and coins. */
static void run_k(unsigned version)
{
    uint8_t first[64];
    plan_drawn(first);
    k.plan_len = in_version(version, k.plan, first, (const unsigned[]){1, 2, 3});
    k.figures_len = BYTES(4);
    k.coins_len = BYTES(7);
    put_list(k.figures, (const unsigned[]){4, 1, 2, 3}, 4);
    put_list(k.coins, (const unsigned[]){2, 3, 4, 5, 1, 5, 7}, 7);
}

/* Each byte of the gate but its kind has to be 0. */
static void rule(void)
{
    for (unsigned version = 1; version <= VERSIONS; version++) {
        run_k(version);
        uint8_t *at = gate_place(k.plan, 1);
        expect("a random wire", pool_plan_check(k.plan, k.plan_len), 0, 0);
        for (unsigned i = 1; i < 2 + 2 * version_of(k.plan).field; i++) {
            at[i] = (uint8_t)(1 + below(255));
            expect("a random wire with another byte", pool_plan_check(k.plan, k.plan_len), 7, 1);
            at[i] = 0;
        }
        put_field(k.plan, PRIME, 5);
        k.plan[6] = 2;
        expect("a product without a majority", pool_plan_check(k.plan, k.plan_len), 25, 0);
        gate(k.plan, 2, 2, 0, 1);
        expect("random wires need none", pool_plan_check(k.plan, k.plan_len), 0, 0);
    }
    uint8_t one[64];
    size_t len = contents(one, 1, 0, 2, 1, 1);
    gate(one, 0, 6, 0, 0);
    out(one, 1, 0, 1, 0);
    expect("a random wire alone", pool_plan_check(one, len), 0, 0);
    hold("its calls", pool_calls(one, len) == 4 << 8);
}

static void sizes(void)
{
    static const unsigned figures[] = {2, 1, 1}, coins[] = {3, 2, 2}, wrote[SEATS][CALLS] = {{3, 3, 3, 1, 0}, {0, 3, 3, 1, 0}, {0, 3, 3, 1, 1}};
    static const unsigned mail[SEATS][CALLS] = {{0, 1, 3, 3, 0}, {0, 1, 3, 3, 0}, {0, 1, 3, 3, 3}};
    hold("the calls follow the rounds", pool_calls(k.plan, k.plan_len) == CALLS << 8);
    hold("all figures", run_bytes(&k, 0, POOL_RUN_FIGURES) == BYTES(4));
    hold("all coins", run_bytes(&k, 0, POOL_RUN_COINS) == BYTES(7));
    hold("seat 3's view", run_bytes(&k, SEAT_3, POOL_RUN_VIEW) == BYTES(VIEW));
    for (uint16_t seat = 1; seat <= SEATS; seat++)
        for (uint16_t call = 0; call < CALLS + 2; call++) {
            uint64_t size[POOL_SEAT_OUT + 1];
            for (uint16_t what = 0; what <= POOL_SEAT_OUT; what++)
                size[what] = pool_seat_size(k.plan, k.plan_len, seat, call, what);
            hold("a seat's figures", size[POOL_SEAT_FIGURES] == BYTES(figures[seat - 1]) << 8);
            hold("a seat's coins", size[POOL_SEAT_COINS] == BYTES(coins[seat - 1]) << 8);
            hold("a seat's state", size[POOL_SEAT_STATE] == BYTES(5) << 8);
            hold("a call's mail", size[POOL_SEAT_MAIL] == (call < CALLS ? BYTES(mail[seat - 1][call]) << 8 : 0));
            hold("what a call writes", size[POOL_SEAT_OUT] == (call < CALLS ? BYTES(wrote[seat - 1][call]) << 8 : 0));
        }
}

/* Seat 3's view: its draw, its coins, the rounds, its result. */
static void worked(void)
{
    static const unsigned want[VIEW] = {3, 5, 7, 10, 10, 3, 7, 1, 2, 1, 3, 0, 8, 6};
    static struct seats s;
    uint8_t view[BYTES(VIEW)], bytes[BYTES(VIEW)], stored[256], body[BYTES(VIEW)];
    put_list(bytes, want, VIEW);
    hold("24 elements are sent", bench(&k, SEAT_3, view) == 24 << 8);
    expect_bytes("seat 3's view", view, bytes, sizeof bytes);
    apart(&k, &s);
    hold("the result by seats", s.out[CALLS - 1][2] == BYTES(1) && get(s.written[2]) == 6);
    for (unsigned seat = 0; seat < SEATS; seat++)
        hold("a finished seat", get(s.state[seat]) == CALLS);
    hold("the shares of the random wire", get(s.state[0] + BYTES(2)) == 7 && get(s.state[1] + BYTES(2)) == 8 && get(s.state[2] + BYTES(2)) == 9);
    size_t size = (size_t)POOL_VALUE(pool_record_size(k.plan, k.plan_len));
    hold("the record's size", size == 24 + BYTES(12 + 10 + VIEW));
    expect("the run is stored", pool_record(k.plan, k.plan_len, k.figures, k.figures_len, k.coins, k.coins_len, NO_TRIPLES, stored, size), 0, 0);
    expect("seat 3's body", pool_record_read_seat(k.plan, k.plan_len, stored, size, 3, body, sizeof body), 0, 0);
    expect_bytes("seat 3's body", body, bytes, sizeof body);
}

/* A coalition's own draws are held equal; others' may change where its results stay. */
static void matching(void)
{
    uint8_t second[BYTES(4)], matched[BYTES(7)], view[2][BYTES(VIEW)];
    struct run other = k;
    static const unsigned held[] = {4, 1, 2, 4}, result[] = {4, 2, 2, 3}, same[] = {4, 2, 1, 3};
    put_list(second, held, 4);
    expect("seat 3's own draw", pool_match(k.plan, k.plan_len, SEAT_3, k.figures, BYTES(4), second, BYTES(4), k.coins, BYTES(7), matched, BYTES(7)), 21, 3);
    put_list(second, result, 4);
    expect("another sum", pool_match(k.plan, k.plan_len, SEAT_3, k.figures, BYTES(4), second, BYTES(4), k.coins, BYTES(7), matched, BYTES(7)), 22, 0);
    put_list(second, same, 4);
    expect("the same sum", pool_match(k.plan, k.plan_len, SEAT_3, k.figures, BYTES(4), second, BYTES(4), k.coins, BYTES(7), matched, BYTES(7)), 0, 0);
    /* delta is 1 + 7X: seat 1's draw grows by 1 and seat 2's falls by 1 */
    put_list(view[0], (const unsigned[]){2, 10, 8, 5, 1, 5, 7}, 7);
    expect_bytes("the matched coins", matched, view[0], sizeof matched);
    memcpy(other.figures, second, sizeof second);
    memcpy(other.coins, matched, sizeof matched);
    hold("both runs are made", bench(&k, SEAT_3, view[0]) == 24 << 8 && bench(&other, SEAT_3, view[1]) == 24 << 8);
    expect_bytes("the same view", view[0], view[1], sizeof view[0]);
    put_list(second, (const unsigned[]){4, 1, 2, 11}, 4);
    expect("a draw of p", pool_match(k.plan, k.plan_len, SEAT_3, k.figures, BYTES(4), second, BYTES(4), k.coins, BYTES(7), matched, BYTES(7)), 11, 3);
}

static void refusals(void)
{
    uint8_t view[BYTES(VIEW)], state[BYTES(5)] = {0}, o[BYTES(3)], bad[BYTES(2)];
    for (size_t len = 0; len < BYTES(6); len++)
        if (len != k.figures_len)
            expect("another count of figures", pool_bench(k.plan, k.plan_len, SEAT_3, k.figures, len, k.coins, k.coins_len, NO_TRIPLES, view, sizeof view), 10, 0);
    put(k.figures + BYTES(2), 11);
    expect("a draw of p", pool_bench(k.plan, k.plan_len, SEAT_3, k.figures, k.figures_len, k.coins, k.coins_len, NO_TRIPLES, view, sizeof view), 11, 2);
    run_k(1);
    expect("a coin too few", pool_bench(k.plan, k.plan_len, SEAT_3, k.figures, k.figures_len, k.coins, BYTES(6), NO_TRIPLES, view, sizeof view), 12, 0);
    put_list(bad, (const unsigned[]){3, 11}, 2);
    expect("a seat without its draw", pool_seat_call(k.plan, k.plan_len, 2, bad, 0, k.coins, BYTES(2), NO_TRIPLES, state, sizeof state, bad, 0, o, 0), 10, 0);
    expect("a seat's draw of p", pool_seat_call(k.plan, k.plan_len, 1, bad, BYTES(2), k.coins, BYTES(3), NO_TRIPLES, state, sizeof state, bad, 0, o, sizeof o), 11, 1);
    put(state, CALLS);
    expect("a finished seat", pool_seat_call(k.plan, k.plan_len, 2, bad, BYTES(1), k.coins, BYTES(2), NO_TRIPLES, state, sizeof state, bad, 0, o, 0), 16, 0);
    put(state, CALLS + 1);
    expect("a call number above", pool_seat_call(k.plan, k.plan_len, 2, bad, BYTES(1), k.coins, BYTES(2), NO_TRIPLES, state, sizeof state, bad, 0, o, 0), 15, 0);
}

/* 30 comes after 13 and before 19, however few settings there are. */
static void counted(void)
{
    uint8_t one[64], figures[BYTES(1)], rows[BYTES(1)];
    size_t len = contents(one, 1, 0, 2, 1, 1);
    gate(one, 0, 6, 0, 0);
    out(one, 1, 0, 1, 0);
    put(figures, 1);
    expect("the views of a random wire", pool_count_size(one, len, 0), 30, 0);
    expect("no set", pool_count_size(one, len, 1), 9, 0);
    for (size_t room = 0; room < sizeof rows; room++)
        expect("the views of a random wire", pool_count(one, len, 0, figures, sizeof figures, rows, 0, rows, room), 30, 0);
    expect("a coin too many", pool_count(one, len, 0, figures, sizeof figures, rows, 1, rows, 0), 12, 0);
    put(figures, 2);
    expect("a draw of p", pool_count(one, len, 0, figures, sizeof figures, rows, 0, rows, 0), 11, 0);
    expect("no draw", pool_count(one, len, 0, figures, 0, rows, 0, rows, 0), 10, 0);
    expect("K with a random wire", pool_count_size(k.plan, k.plan_len, SEAT_3), 30, 0);
}

/* As many random wires as there may be: 15,360 draws and 215,040 coins. */
static void most(void)
{
    static uint8_t plan[MOST_PLAN], figures[BYTES(15 * MOST_WIRES)], coins[BYTES(14 * 15 * MOST_WIRES)], view[BYTES(1 << 16)];
    for (unsigned version = 1; version <= VERSIONS; version++) {
        unsigned p = version < 3 ? 65521 : MOST_PRIME, sum = 0;
        size_t len = contents_in(version, plan, 15, 14, p, MOST_WIRES, 1);
        for (unsigned g = 0; g < MOST_WIRES; g++)
            gate(plan, g, 6, 0, 0);
        out(plan, MOST_WIRES, 0, 15, MOST_WIRES - 1);
        hold("their figures", POOL_VALUE(pool_run_size(plan, len, 0, POOL_RUN_FIGURES)) == sizeof figures);
        hold("their coins", POOL_VALUE(pool_run_size(plan, len, 0, POOL_RUN_COINS)) == sizeof coins);
        hold("a seat's figures", POOL_VALUE(pool_seat_size(plan, len, 15, 0, POOL_SEAT_FIGURES)) == BYTES(MOST_WIRES));
        hold("a seat's coins", POOL_VALUE(pool_seat_size(plan, len, 15, 0, POOL_SEAT_COINS)) == BYTES(14 * MOST_WIRES));
        hold("their calls", POOL_VALUE(pool_calls(plan, len)) == MOST_WIRES + 3);
        for (size_t i = 0; i < sizeof figures; i += BYTES(1))
            put(figures + i, below(8) ? below(p) : p - 1);
        for (size_t i = 0; i < sizeof coins; i += BYTES(1))
            put(coins + i, below(8) ? below(p) : p - 1);
        for (size_t i = sizeof figures - BYTES(15); i < sizeof figures; i += BYTES(1))
            sum = (unsigned)(((uint64_t)sum + get(figures + i)) % p);
        size_t view_len = (size_t)POOL_VALUE(pool_run_size(plan, len, 1 << 14, POOL_RUN_VIEW));
        hold("a view has room", view_len == BYTES(15 * MOST_WIRES + 15 * MOST_WIRES + 15 + 1) && view_len <= sizeof view);
        uint64_t answer = pool_bench(plan, len, 1 << 14, figures, sizeof figures, coins, sizeof coins, NO_TRIPLES, view, view_len);
        hold("what all send", answer == (uint64_t)15 * (15 * MOST_WIRES + 1) << 8);
        hold("the result is the last draws' sum", get(view + view_len - BYTES(1)) == sum);
    }
}

int main(void)
{
    rule();
    for (unsigned version = 1; version < MASKING; version++) {
        run_k(version);
        sizes();
        worked();
        matching();
    }
    run_k(1);
    refusals();
    counted();
    most();
    printf("%d passed, %d failed\n", passed, failed);
    return failed != 0;
}
