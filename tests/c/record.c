/* The run record and its two readers: plan K's record byte for byte, round trips against the bench's views and against seats apart, every way in
 * which a record is refused, the order of the refusals, matched runs, and what a plant's reader depends on. */
#include "runs.h"

enum { MOST_RECORD = 1 << 21, GUARD = 16, K_SIZE = 128, K_CONTENTS = 24, BODY_3 = 88, LENGTH_3 = 40 };

static uint8_t record[MOST_RECORD], numbers[MOST_RECORD + GUARD], before[MOST_RECORD + GUARD];

/* ---- calls, with what they leave as it was */

/* Any bytes, before a call that is lent so many of them. */
static void fill(size_t room)
{
    for (size_t i = 0; i < room + GUARD; i++)
        before[i] = numbers[i] = (uint8_t)below(256);
}

/* A refused call writes nothing, and no call writes a byte more. */
static uint64_t kept(uint64_t answer, size_t room)
{
    if (POOL_REFUSAL(answer))
        expect_bytes("a refused call writes nothing", numbers, before, room + GUARD);
    else
        expect_bytes("a call writes no byte more", numbers + room, before + room, GUARD);
    return answer;
}

static uint64_t store(const struct run *r, size_t room)
{
    static uint8_t triples[sizeof r->triples];
    memcpy(triples, r->triples, r->triples_len);
    fill(room);
    return kept(pool_record(r->plan, r->plan_len, r->figures, r->figures_len, r->coins, r->coins_len, triples, r->triples_len, numbers, room), room);
}

static uint64_t read_all(const struct run *r, const uint8_t *from, size_t len, size_t room)
{
    fill(room);
    return kept(pool_record_read(r->plan, r->plan_len, from, len, numbers, room), room);
}

static uint64_t read_seat(const struct run *r, const uint8_t *from, size_t len, unsigned seat, size_t room)
{
    fill(room);
    return kept(pool_record_read_seat(r->plan, r->plan_len, from, len, (uint16_t)seat, numbers, room), room);
}

static size_t record_size(const struct run *r)
{
    uint64_t answer = pool_record_size(r->plan, r->plan_len);
    expect("the record's size", POOL_REFUSAL(answer), 0, 0);
    return (size_t)POOL_VALUE(answer);
}

/* The entry of a seat, counted from 0. */
static size_t offset_of(const uint8_t *from, unsigned seat)
{
    return get(from + POOL_RECORD_ENTRY * seat);
}

static size_t length_of(const uint8_t *from, unsigned seat)
{
    return get(from + POOL_RECORD_ENTRY * seat + BYTES(1));
}

/* Stores a run in `record` and answers its size. */
static size_t stored(const struct run *r)
{
    size_t size = record_size(r);
    expect("a run is stored", store(r, size), 0, 0);
    memcpy(record, numbers, size);
    return size;
}

/* ---- plan K */

static struct run k;

static void run_k(unsigned version)
{
    uint8_t first[64];
    plan_k(first);
    k.plan_len = in_version(version, k.plan, first, (const unsigned[]){1, 2, 3});
    k.figures_len = BYTES(2);
    k.coins_len = BYTES(5);
    put_list(k.figures, (const unsigned[]){4, 5}, 2);
    put_list(k.coins, (const unsigned[]){2, 3, 1, 5, 7}, 5);
}

static void worked(void)
{
    static const unsigned want[K_SIZE / 4] = {24, 32, 56, 32, 88, 40, 4, 2, 1, 6, 8, 5, 5, 4, 5, 3, 5, 8, 0, 6, 10, 0, 7, 10, 3, 7, 4, 7, 10, 7, 4, 2};
    uint8_t bytes[K_SIZE];
    put_list(bytes, want, K_SIZE / 4);
    for (unsigned version = 1; version < MASKING; version++) {
        run_k(version);
        hold("K's record has 128 bytes", stored(&k) == K_SIZE);
        expect_bytes("K's record", record, bytes, K_SIZE);
        expect("all bodies of K", read_all(&k, record, K_SIZE, K_SIZE - K_CONTENTS), 0, 0);
        expect_bytes("all bodies of K", numbers, bytes + K_CONTENTS, K_SIZE - K_CONTENTS);
        expect("seat 3's body", read_seat(&k, record, K_SIZE, 3, LENGTH_3), 0, 0);
        expect_bytes("seat 3's body", numbers, bytes + BODY_3, LENGTH_3);
    }
}

/* Both readers refuse a record 28, whatever the seat and the room. */
static void broken(const char *what, const uint8_t *from, size_t len)
{
    static const unsigned seats[] = {0, 1, 2, 3, 4, 16, 257, 65535};
    for (unsigned i = 0; i < sizeof seats / sizeof *seats; i++) {
        expect(what, read_seat(&k, from, len, seats[i], 32), 28, 0);
        expect(what, read_seat(&k, from, len, seats[i], LENGTH_3), 28, 0);
        expect(what, read_seat(&k, from, len, seats[i], 0), 28, 0);
    }
    expect(what, read_all(&k, from, len, K_SIZE - K_CONTENTS), 28, 0);
    expect(what, read_all(&k, from, len, K_SIZE), 28, 0);
}

struct contents {
    const char *what;
    size_t len;
    unsigned entries[6];
};

/* K's bodies behind other contents, in a file of another length. */
static void other_contents(void)
{
    static const struct contents all[] = {
        {"a gap before the first body", 132, {28, 32, 60, 32, 92, 40}},
        {"a gap between bodies", 132, {24, 32, 60, 32, 92, 40}},
        {"a gap of a byte", 129, {24, 32, 56, 32, 89, 40}},
        {"a gap at the end", 132, {24, 32, 56, 32, 88, 40}},
        {"two bodies overlap", 128, {24, 32, 24, 32, 88, 40}},
        {"two bodies overlap by a number", 124, {24, 32, 52, 32, 84, 40}},
        {"a body in the contents", 128, {0, 32, 56, 32, 88, 40}},
        {"offsets from the bodies' start", 128, {0, 32, 32, 32, 64, 40}},
        {"all bodies in one place", 128, {24, 32, 24, 32, 24, 40}},
        {"seat 2's body first", 128, {56, 32, 24, 32, 88, 40}},
        {"seat 3's body first", 128, {64, 32, 96, 32, 24, 40}},
        {"seats descending", 128, {96, 32, 64, 32, 24, 40}},
        {"lengths before offsets", 128, {32, 24, 32, 56, 40, 88}},
        {"the contents end early", 124, {24, 32, 56, 32, 88, 36}},
        {"the contents end a byte early", 127, {24, 32, 56, 32, 88, 39}},
        {"the contents end late", 132, {24, 32, 56, 32, 88, 44}},
        {"the contents end a byte late", 129, {24, 32, 56, 32, 88, 41}},
        {"the contents end before the file", 128, {24, 32, 56, 32, 88, 36}},
        {"the contents end after the file", 128, {24, 32, 56, 32, 88, 44}},
        {"the file ends before the contents", 124, {24, 32, 56, 32, 88, 40}},
        {"a length wrong by 1", 128, {24, 33, 57, 31, 88, 40}},
        {"a length wrong by -1", 128, {24, 32, 56, 31, 87, 41}},
        {"a length wrong by 4", 128, {24, 36, 60, 28, 88, 40}},
        {"a length wrong by -4", 128, {24, 28, 52, 36, 88, 40}},
        {"the first length wrong by 1, in a longer file", 129, {24, 33, 57, 32, 89, 40}},
        {"the first length wrong by 4, in a longer file", 132, {24, 36, 60, 32, 92, 40}},
        {"the last length wrong by 1, in a longer file", 129, {24, 32, 56, 32, 88, 41}},
        {"the last length wrong by 4, in a shorter file", 124, {24, 32, 56, 32, 88, 36}},
        {"an empty body", 96, {24, 0, 24, 32, 56, 40}},
        {"lengths in numbers", 128, {24, 8, 56, 8, 88, 10}},
        {"all zero", 128, {0, 0, 0, 0, 0, 0}},
        {"a length above 65,536", 128, {24, 32 + 65536, 56, 32, 88, 40}},
        {"the last length above 65,536", 128, {24, 32, 56, 32, 88, 40 + 65536}},
        {"an offset above 65,536", 128, {24, 32, 56 + 65536, 32, 88, 40}},
        {"a length above 2^24", 128, {24, 32, 56, 32 + (1u << 24), 88, 40}},
        {"an offset above 2^31", 128, {24, 32, 56, 32, 88 + (1u << 31), 40}},
        {"an offset of 2^32 - 1", 128, {24, 32, 0xffffffff, 32, 88, 40}},
        {"a body that ends at 2^32", 128, {24, 32, 56, 32, 0xffffffff - 39, 40}},
        {"a body that ends past 2^32", 128, {24, 32, 56, 32, 0xffffffff - 3, 40}},
        {"a length of 2^32 - 1", 128, {24, 32, 56, 32, 88, 0xffffffff}},
        {"lengths that tile modulo 2^32", 128, {24, 0xffffffff - 31, 0xffffffff - 7, 96, 88, 40}},
        {"lengths that tile modulo 2^32, the last one", 128, {24, 32, 56, 0xffffffff - 31, 24, 104}},
        {"offsets that tile modulo 2^32", 128, {0xffffffff - 7, 32, 24, 64, 88, 40}},
    };
    uint8_t from[K_SIZE + 8];
    for (unsigned i = 0; i < sizeof all / sizeof *all; i++) {
        memset(from, 3, sizeof from);
        memcpy(from, record, K_SIZE);
        put_list(from, all[i].entries, 6);
        broken(all[i].what, from, all[i].len);
    }
}

/* Contents that tile a file which is longer, each length but one what the plan gives. */
static void longer_bodies(void)
{
    static const unsigned more[] = {1, 4, 256, 65536, 131072, 1u << 20};
    static uint8_t from[K_SIZE + (1 << 20)];
    for (unsigned i = 0; i < 3 * sizeof more / sizeof *more; i++) {
        unsigned seat = i % 3, by = more[i / 3];
        memcpy(from, record, K_SIZE);
        put(from + POOL_RECORD_ENTRY * seat + BYTES(1), (unsigned)length_of(record, seat) + by);
        for (unsigned later = seat + 1; later < 3; later++)
            put(from + POOL_RECORD_ENTRY * later, (unsigned)offset_of(record, later) + by);
        broken("a longer body in a longer file", from, K_SIZE + by);
        broken("a longer body in a file of K's length", from, K_SIZE);
    }
}

/* Each bit of the contents, each length of the file, and any other bytes. */
static void other_bytes(void)
{
    uint8_t from[K_SIZE + 64];
    memset(from, 0, sizeof from);
    memcpy(from, record, K_SIZE);
    for (unsigned bit = 0; bit < 8 * K_CONTENTS; bit++) {
        from[bit / 8] ^= (uint8_t)(1u << bit % 8);
        broken("a bit of the contents", from, K_SIZE);
        from[bit / 8] ^= (uint8_t)(1u << bit % 8);
    }
    for (size_t len = 0; len <= sizeof from; len++)
        if (len != K_SIZE)
            broken("another length of the file", from, len);
    for (unsigned i = 0; i < 200; i++) {
        from[below(K_CONTENTS)] ^= (uint8_t)(1 + below(255));
        from[below(K_SIZE)] = (uint8_t)below(256);
        if (memcmp(from, record, K_CONTENTS))
            broken("any other contents", from, K_SIZE);
    }
    for (size_t i = 0; i < sizeof from; i++)
        from[i] = (uint8_t)below(256);
    broken("any bytes", from, K_SIZE);
}

/* A record of the same length, of a plan that gives its out to seat 1: seat 1's body is longer and seat 3's shorter. */
static void another_plan(void)
{
    static struct run other;
    run_k(1);
    other = k;
    out(other.plan, 4, 0, 1, 3);
    hold("the other plan's record is as long", stored(&other) == K_SIZE);
    hold("its bodies are not", length_of(record, 0) == 48 && length_of(record, 2) == 24);
    broken("a record of another plan", record, K_SIZE);
    expect("its own plan reads it", read_all(&other, record, K_SIZE, K_SIZE - K_CONTENTS), 0, 0);
    hold("K's record again", stored(&k) == K_SIZE);
    expect("K's record under the other plan", read_all(&other, record, K_SIZE, K_SIZE - K_CONTENTS), 28, 0);
    expect("K's record under the other plan", read_seat(&other, record, K_SIZE, 2, 32), 28, 0);
}

/* 9 and 19 of the readers, in this order, after a plan's own refusals and 28. */
static void order(void)
{
    static const unsigned none[] = {0, 4, 15, 16, 256, 257, 259, 32769, 65535};
    run_k(1);
    stored(&k);
    for (unsigned i = 0; i < sizeof none / sizeof *none; i++)
        for (size_t room = 0; room <= LENGTH_3; room += 8)
            expect("a seat that is not 1 to n", read_seat(&k, record, K_SIZE, none[i], room), 9, 0);
    for (size_t room = 0; room <= K_SIZE; room++) {
        for (unsigned seat = 1; seat <= 3; seat++)
            if (room != length_of(record, seat - 1))
                expect("another length for a body", read_seat(&k, record, K_SIZE, seat, room), 19, 0);
        if (room != K_SIZE - K_CONTENTS)
            expect("another length for all bodies", read_all(&k, record, K_SIZE, room), 19, 0);
    }
    for (size_t len = 0, whole = k.plan_len; len < whole; len++) {
        k.plan_len = len;
        expect("the plan before 28", read_seat(&k, record, K_SIZE - 1, 0, 1), len < 18 ? 1 : 6, 0);
        expect("the plan before 28", read_all(&k, record, K_SIZE - 1, 1), len < 18 ? 1 : 6, 0);
        expect("the plan before 10", store(&k, 1), len < 18 ? 1 : 6, 0);
        expect("the size of no plan's record", pool_record_size(k.plan, len), len < 18 ? 1 : 6, 0);
    }
    run_k(1);
    gate(k.plan, 2, 5, 0, 2);
    expect("a gate's rule, with its place", read_seat(&k, record, 0, 0, 0), 7, 2);
    expect("a gate's rule, with its place", pool_record_size(k.plan, k.plan_len), 7, 2);
    run_k(2);
    point(k.plan, 1, 1);
    expect("26 before 28", read_all(&k, record, 0, 0), 26, 0);
    k.plan[6] = 2;
    expect("25 before 28", read_all(&k, record, 0, 0), 25, 0);
    expect("25 before 10", store(&k, 0), 25, 0);
}

/* The writer's own refusals. */
static void writer(void)
{
    run_k(1);
    for (size_t room = 0; room <= K_SIZE + 8; room++)
        expect("a record's room", store(&k, room), room == K_SIZE ? 0 : 19, 0);
    put(k.coins + BYTES(3), 11);
    expect("a coin of p before 19", store(&k, 0), 13, 3);
    k.coins_len--;
    expect("the count of coins before a coin", store(&k, 0), 12, 0);
    put(k.figures + BYTES(1), 0xffffffff);
    expect("a figure before the count of coins", store(&k, 0), 11, 1);
    k.figures_len -= BYTES(1);
    expect("the count of figures first", store(&k, 0), 10, 0);
}

/* ---- any run */

/* Whose each number of the lists is: a seat's figures and coins, one after the other, in the run's order. Answers how many bytes they have. */
static size_t own_numbers(const struct run *r, unsigned seat, uint8_t *to)
{
    const uint8_t *figures = r->figures, *coins = r->coins;
    unsigned n = r->plan[5], all = n * get_field(r->plan, GATE_COUNT);
    uint8_t *at = to;
    for (unsigned i = 0; i < all; i++) {
        size_t len = BYTES(figures_at(r->plan, i / n, 1 + i % n)), mine = 1 + i % n == seat ? len : 0;
        memcpy(at, figures, mine);
        at += mine;
        figures += len;
    }
    for (unsigned i = 0; i < all; i++) {
        size_t len = BYTES(coins_at(r->plan, i / n, 1 + i % n)), mine = 1 + i % n == seat ? len : 0;
        memcpy(at, coins, mine);
        at += mine;
        coins += len;
    }
    return (size_t)(at - to);
}

/* Every seat's body by its own calls: its numbers, the mail of each call, its results. */
static void bodies_apart(const struct run *r, uint8_t body[15][MOST_VIEW], size_t *len)
{
    static struct seats s;
    static uint8_t next[15][MOST_WRITTEN];
    unsigned refused = 0;
    ask_sizes(r, &s);
    refresh(r, &s);
    for (unsigned i = 0; i < s.n; i++) {
        s.figures[i] = (size_t)POOL_VALUE(pool_seat_size(r->plan, r->plan_len, (uint16_t)(i + 1), 0, POOL_SEAT_FIGURES));
        len[i] = own_numbers(r, i + 1, body[i]);
        s.coins[i] = len[i] - s.figures[i];
        memcpy(s.own[i], body[i], len[i]);
    }
    for (unsigned i = 0; i < s.n * s.calls; i++) {
        unsigned seat = i % s.n, call = i / s.n;
        for (unsigned from = 0; call && from < s.n; from++) {
            size_t at, part = part_for(&s, from, seat, call - 1, &at);
            memcpy(body[seat] + len[seat], s.written[from] + at, part);
            len[seat] += part;
        }
        refused += seat_call(r, &s, seat, call, next[seat]) != 0;
        if (seat == s.n - 1)
            memcpy(s.written, next, sizeof next);
    }
    for (unsigned i = 0; i < s.n; i++) {
        memcpy(body[i] + len[i], s.written[i], s.out[s.calls - 1][i]);
        len[i] += s.out[s.calls - 1][i];
    }
    expect("no call of seats apart is refused", refused, 0, 0);
}

/* A seat's body, where there can be a set of one: the bench's view. */
static void same_view(const struct run *r, unsigned seat, const uint8_t *body, size_t len)
{
    static uint8_t view[MOST_VIEW];
    if (r->plan[6] == 0)
        return;
    hold("a body is as long as the seat's view", run_bytes(r, 1u << seat, POOL_RUN_VIEW) == len);
    expect("the bench is not refused", POOL_REFUSAL(bench(r, 1u << seat, view)), 0, 0);
    expect_bytes("a body is the seat's view", body, view, len);
}

/* The record of a run: its contents tile it, its bodies are the views, and both readers show them. */
static void round_trip(const struct run *r)
{
    static uint8_t body[15][MOST_VIEW];
    size_t len[15], size = stored(r), at = POOL_RECORD_ENTRY * r->plan[5];
    bodies_apart(r, body, len);
    expect("all bodies", read_all(r, record, size, size - at), 0, 0);
    expect_bytes("all bodies", numbers, record + at, size - at);
    for (unsigned i = 0; i < r->plan[5]; i++) {
        hold("a body's offset", offset_of(record, i) == at);
        hold("a body's length", length_of(record, i) == len[i]);
        expect_bytes("a body is what the seat held and received apart", record + at, body[i], len[i]);
        same_view(r, i, record + at, len[i]);
        expect("a seat's body", read_seat(r, record, size, i + 1, len[i]), 0, 0);
        expect_bytes("a seat's body", numbers, body[i], len[i]);
        at += len[i];
    }
    hold("the bodies end with the record", at == size);
}

/* Other bodies of any bytes, not below p most of them: all are shown as stored, and a plant's reader shows its own as before. */
static void as_stored(const struct run *r)
{
    static uint8_t own[MOST_VIEW];
    unsigned seat = below(r->plan[5]);
    size_t size = stored(r), contents = POOL_RECORD_ENTRY * r->plan[5], from = offset_of(record, seat), len = length_of(record, seat);
    memcpy(own, record + from, len);
    for (size_t i = contents; i < size; i++)
        record[i] = i < from || i >= from + len ? (uint8_t)below(256) : record[i];
    expect("other bodies of any bytes", read_seat(r, record, size, seat + 1, len), 0, 0);
    expect_bytes("a plant's reader reads its own body", numbers, own, len);
    expect("bodies of any bytes", read_all(r, record, size, size - contents), 0, 0);
    expect_bytes("they are shown as stored", numbers, record + contents, size - contents);
    memset(record + from, 255, len);
    expect("a body of 2^32 - 1", read_seat(r, record, size, seat + 1, len), 0, 0);
    expect_bytes("it is shown as stored", numbers, record + from, len);
    unsigned other = (seat + 1) % r->plan[5];
    record[POOL_RECORD_ENTRY * other + below(POOL_RECORD_ENTRY)] ^= 1;
    expect("another seat's entry counts", read_seat(r, record, size, seat + 1, len), 28, 0);
}

/* A run matched for a seat alone: the plant's reader shows the same of both. Answers whether it is matched. */
static unsigned matched(const struct run *r)
{
    static struct run second;
    static uint8_t first[MOST_VIEW];
    unsigned seat = below(r->plan[5]);
    if (r->plan[6] == 0)
        return 0;
    second = *r;
    put(second.figures + BYTES(below((unsigned)r->figures_len / BYTES(1))), below(get_field(r->plan, PRIME)));
    if (pool_match(r->plan, r->plan_len, (uint16_t)(1u << seat), r->figures, r->figures_len, second.figures, r->figures_len, r->coins, r->coins_len,
            second.coins, r->coins_len))
        return 0;
    size_t size = stored(r), len = length_of(record, seat);
    memcpy(first, record + offset_of(record, seat), len);
    stored(&second);
    expect("the matched run's record", read_seat(&second, record, size, seat + 1, len), 0, 0);
    expect_bytes("a plant's reader shows the same of both runs", numbers, first, len);
    return memcmp(second.figures, r->figures, r->figures_len) != 0;
}

/* Adds in the place of multiplies, and any threshold below n. */
static void only_adds(struct run *r)
{
    for (unsigned g = 0; g < get_field(r->plan, GATE_COUNT); g++)
        if (gate_place(r->plan, g)[0] == 5 || gate_place(r->plan, g)[0] == 7)
            gate_place(r->plan, g)[0] = 2;
    r->plan[6] = (uint8_t)below(r->plan[5]);
    any_lists(r);
}

static void many_runs(unsigned count)
{
    static struct run r, pointed;
    static const unsigned large[] = {65537, 1073741827, MOST_PRIME};
    unsigned points[15], matches = 0;
    for (unsigned i = 0; i < count; i++) {
        unsigned version = 1 + i % VERSIONS, p = version > 2 && below(3) ? large[below(3)] : small_prime();
        any_plan(&r, version == 2 ? 1 : version, p);
        if (version == 2) {
            pointed = r;
            any_points(points, r.plan[5], p);
            r.plan_len = in_version(2, r.plan, pointed.plan, points);
            any_triples(&r);
        }
        if (i % 4 == 3)
            only_adds(&r);
        round_trip(&r);
        as_stored(&r);
        matches += matched(&r);
    }
    hold("many runs are matched", matches > count / 8);
}

/* ---- the largest plan: bodies of over 65,536 bytes */

static uint8_t plan[MOST_PLAN], coins[BYTES(120000)], figures[BYTES(1024)];

static uint64_t large_store(size_t plan_len, size_t size)
{
    size_t figures_len = (size_t)POOL_VALUE(pool_run_size(plan, plan_len, 0, POOL_RUN_FIGURES));
    size_t coins_len = (size_t)POOL_VALUE(pool_run_size(plan, plan_len, 0, POOL_RUN_COINS));
    for (size_t i = 0; i < coins_len; i += BYTES(1))
        put(coins + i, below(65521));
    return pool_record(plan, plan_len, figures, figures_len, coins, coins_len, NO_TRIPLES, record, size);
}

/* What the bench's reader and a plant's answer. */
static void large_reads(const char *what, size_t plan_len, size_t size, unsigned seat, unsigned number)
{
    size_t body = (size_t)POOL_VALUE(pool_run_size(plan, plan_len, (uint16_t)(1u << seat), POOL_RUN_VIEW));
    expect(what, pool_record_read(plan, plan_len, record, size, numbers, size - 15 * POOL_RECORD_ENTRY), number, 0);
    expect(what, pool_record_read_seat(plan, plan_len, record, size, (uint16_t)(seat + 1), numbers, body), number, 0);
}

static void large_body(size_t plan_len, size_t size, unsigned seat)
{
    uint8_t *length = record + POOL_RECORD_ENTRY * seat + BYTES(1);
    unsigned body = get(length);
    hold("a large body", body > 65536);
    pool_bench(plan, plan_len, (uint16_t)(1u << seat), figures, BYTES(15), coins, (size_t)POOL_VALUE(pool_run_size(plan, plan_len, 0, POOL_RUN_COINS)), NO_TRIPLES,
        before, body);
    large_reads("a large body is read", plan_len, size, seat, 0);
    expect_bytes("a large body is the seat's view", numbers, before, body);
    put(length, body - 65536);
    large_reads("a length that is right modulo 65,536", plan_len, size, seat, 28);
    put(length, body);
}

/* Of a seat's body 65,536 bytes belong to the next one's. */
static void moved_border(size_t plan_len, size_t size, unsigned seat)
{
    uint8_t *entry = record + POOL_RECORD_ENTRY * seat, kept_entries[2 * POOL_RECORD_ENTRY];
    memcpy(kept_entries, entry, sizeof kept_entries);
    put(entry + BYTES(1), get(entry + BYTES(1)) - 65536);
    put(entry + BYTES(2), get(entry + BYTES(2)) - 65536);
    put(entry + BYTES(3), get(entry + BYTES(3)) + 65536);
    large_reads("lengths that tile and are right modulo 65,536", plan_len, size, seat, 28);
    memcpy(entry, kept_entries, sizeof kept_entries);
}

static void largest(void)
{
    size_t len = contents(plan, 15, 7, 65521, 1024, 64);
    for (unsigned g = 0; g < 1024; g++)
        gate(plan, g, g < 15 ? 1 : 5, g < 15 ? g + 1 : g - 1, g < 15 ? 0 : g / 2);
    for (unsigned o = 0; o < 64; o++)
        out(plan, 1024, o, 1 + o % 15, 1023);
    size_t size = (size_t)POOL_VALUE(pool_record_size(plan, len));
    hold("the largest plan's record has room", size <= MOST_RECORD);
    expect("the largest plan is stored", large_store(len, size), 0, 0);
    for (unsigned seat = 0; seat < 15; seat++)
        large_body(len, size, seat);
    for (unsigned seat = 0; seat < 14; seat++)
        moved_border(len, size, seat);
    hold("the bodies end with the record", offset_of(record, 14) + length_of(record, 14) == size);
    expect("a file that is 65,536 bytes short", pool_record_read(plan, len, record, size - 65536, numbers, size - 15 * POOL_RECORD_ENTRY), 28, 0);
}

int main(void)
{
    worked();
    other_contents();
    longer_bodies();
    other_bytes();
    another_plan();
    order();
    writer();
    many_runs(200);
    largest();
    printf("%d passed, %d failed\n", passed, failed);
    return failed != 0;
}
