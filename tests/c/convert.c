/* The converter to version 3: its bytes, its sizes, all its refusals, and that the new file's runs are the old one's, number for number. */
#include "runs.h"

enum { ROOM = MOST_PLAN + 8 };

static uint8_t to[ROOM], before[ROOM];

/* Converts into so many bytes. A refused call writes nothing, and no call writes a byte more. */
static uint64_t convert(const uint8_t *plan, size_t len, size_t room)
{
    for (size_t i = 0; i < ROOM; i++)
        before[i] = to[i] = (uint8_t)below(256);
    uint64_t answer = pool_convert(plan, len, to, room);
    if (POOL_REFUSAL(answer))
        expect_bytes("a refused call writes nothing", to, before, ROOM);
    else
        expect_bytes("a call writes no byte more", to + room, before + room, ROOM - room);
    return answer;
}

/* A plan that is refused, whatever the room, and by pool_convert_size as well. */
static void refused(const char *what, const uint8_t *plan, size_t len, unsigned number, uint32_t place)
{
    expect(what, pool_convert_size(plan, len), number, place);
    expect(what, convert(plan, len, 87), number, place);
    expect(what, convert(plan, len, 0), number, place);
}

/* A plan that is converted: the file is this one, and passes; another room is refused. */
static void converts(const char *what, const uint8_t *plan, size_t len, const uint8_t *want, size_t want_len)
{
    uint64_t size = pool_convert_size(plan, len);
    expect(what, POOL_REFUSAL(size), 0, 0);
    hold(what, POOL_VALUE(size) == want_len);
    for (size_t off = 1; off <= 4; off++) {
        expect("a buffer too short", convert(plan, len, want_len - off), 19, 0);
        expect("a buffer too long", convert(plan, len, want_len + off), 19, 0);
    }
    expect("no buffer", convert(plan, len, 0), 19, 0);
    expect("a buffer of the old size", convert(plan, len, len), 19, 0);
    expect(what, convert(plan, len, want_len), 0, 0);
    expect_bytes(what, to, want, want_len);
    expect(what, pool_plan_check(to, want_len), 0, 0);
}

/* Plan K over 101 in version 2, with these points. */
static size_t codes(uint8_t *plan, unsigned a, unsigned b, unsigned c)
{
    uint8_t first[64];
    plan_k(first);
    put_field(first, PRIME, 101);
    return in_version(2, plan, first, (const unsigned[]){a, b, c});
}

/* K and the plan with site codes, byte by byte as the layout is. */
static void worked(void)
{
    static const uint8_t want_k[87] = {
        'P', 'O', 'O', 'L', 3, 3, 1, 0, 11, 0, 0, 0, 32, 0, 0, 0, 4, 0, 0, 0, 72, 0, 0, 0, 1, 0, 0, 0, 75, 0, 0, 0,
        1, 0, 1, 0, 0, 0, 0, 0, 0, 0, 1, 0, 2, 0, 0, 0, 0, 0, 0, 0, 5, 0, 0, 0, 0, 0, 1, 0, 0, 0, 2, 0, 2, 0, 0, 0, 0, 0, 0, 0,
        3, 3, 0, 1, 0, 0, 0, 2, 0, 0, 0, 3, 0, 0, 0};
    uint8_t plan[64], want[sizeof want_k];
    converts("K", plan, plan_k(plan), want_k, sizeof want_k);
    memcpy(want, want_k, sizeof want);
    want[8] = 101;
    want[75] = 7;
    want[79] = 40;
    want[83] = 3;
    converts("site codes", plan, codes(plan, 7, 40, 3), want, sizeof want);
    /* two bytes of a prime, of a constant, of a wire and of a point */
    plan_k(plan);
    put_field(plan, PRIME, 65521);
    gate(plan, 3, 4, 2, 65520);
    converts("large numbers in version 1", plan, 45, want, in_version(3, want, plan, (const unsigned[]){1, 2, 3}));
    hold("its prime and its constant", get_bytes(want + 8, 4) == 65521 && get_bytes(want + 68, 4) == 65520 && want[62] == 4 && want[64] == 2);
    uint8_t second[64];
    size_t len = in_version(2, second, plan, (const unsigned[]){65520, 258, 65519});
    converts("large numbers in version 2", second, len, want, in_version(3, want, second, (const unsigned[]){65520, 258, 65519}));
    hold("its points", get_bytes(want + 75, 4) == 65520 && get_bytes(want + 79, 4) == 258 && get_bytes(want + 83, 4) == 65519);
}

/* One byte of K, or of the plan with site codes, changed. */
static void changed(const char *what, unsigned version, size_t at, unsigned v, unsigned number, uint32_t place)
{
    uint8_t plan[64];
    size_t len = version == 1 ? plan_k(plan) : codes(plan, 7, 40, 3);
    plan[at] = (uint8_t)v;
    refused(what, plan, len, number, place);
}

static void refusals(void)
{
    changed("letters", 1, 0, 'p', 1, 0);
    changed("letters", 1, 3, 'K', 1, 0);
    changed("16 parties", 1, 5, 16, 3, 0);
    changed("no party", 1, 5, 0, 3, 0);
    changed("t is n", 1, 6, 3, 4, 0);
    changed("p=9", 1, 8, 9, 5, 0);
    changed("p=3", 1, 8, 3, 5, 0);
    changed("byte 7", 1, 7, 1, 6, 0);
    changed("gates' offset", 1, 10, 32, 6, 0);
    changed("no gates", 1, 12, 0, 6, 0);
    changed("outs' offset", 1, 14, 41, 6, 0);
    changed("no outs", 1, 16, 0, 6, 0);
    changed("kind 6 with an a", 1, 24, 6, 7, 1);
    changed("wire 3 reads itself", 1, 40, 3, 7, 3);
    changed("an out of party 4", 1, 42, 4, 8, 0);
    changed("2t is n + 1", 1, 6, 2, 25, 0);
    changed("the points' offset", 2, 18, 48, 6, 0);
    changed("gate 1's kind", 2, 26, 9, 7, 1);
    changed("out 0's wire", 2, 45, 4, 8, 0);
    changed("2t is n + 1, with points", 2, 6, 2, 25, 0);
    changed("a point of 0", 2, 47, 0, 26, 0);
    changed("a point of p", 2, 49, 101, 26, 0);
    changed("a point twice", 2, 51, 7, 26, 0);
}

/* Versions that are not converted: all but 1 and 2, and 2 comes after 1 and before everything else. */
static void versions_refused(void)
{
    uint8_t plan[64], third[128];
    size_t len = plan_k(plan), third_len = in_version(3, third, plan, (const unsigned[]){1, 2, 3});
    expect("a plan of version 3 passes", pool_plan_check(third, third_len), 0, 0);
    refused("a plan of version 3", third, third_len, 2, 0);
    third[4] = 4;
    expect("a plan of version 4 passes", pool_plan_check(third, third_len), 0, 0);
    refused("a plan of version 4", third, third_len, 2, 0);
    third[4] = 3;
    expect("a plan of version 3 into its own size", convert(third, third_len, third_len), 2, 0);
    refused("a plan of version 3 with a byte more", third, third_len + 1, 2, 0);
    for (size_t k = 0; k <= third_len; k++)
        refused("a plan of version 3 cut short", third, k, k < 18 ? 1 : 2, 0);
    third[5] = 16;
    refused("2 before 3", third, third_len, 2, 0);
    third[0] = 'L';
    refused("1 before 2", third, third_len, 1, 0);
    for (unsigned version = 0; version < 256; version++) {
        plan[4] = (uint8_t)version;
        if (version < 1 || version > 2)
            refused("another version", plan, len, 2, 0);
    }
}

/* What is checked comes in the order of the plan check, and before the room. */
static void order(void)
{
    uint8_t plan[64];
    size_t len = codes(plan, 7, 7, 7);
    refused("26 before 19", plan, len, 26, 0);
    plan[6] = 2;
    refused("25 before 26", plan, len, 25, 0);
    plan[44] = 4;
    refused("8 before 25", plan, len, 8, 0);
    plan[26] = 9;
    refused("7 before 8", plan, len, 7, 1);
    plan[7] = 1;
    refused("6 before 7", plan, len, 6, 0);
    plan[8] = 9;
    refused("5 before 6", plan, len, 5, 0);
    plan[6] = 3;
    refused("4 before 5", plan, len, 4, 0);
    plan[5] = 0;
    refused("3 before 4", plan, len, 3, 0);
    plan[4] = 3;
    refused("2 before 3", plan, len, 2, 0);
    len = plan_k(plan);
    for (size_t k = 0; k < len; k++)
        refused("K cut short", plan, k, k < 18 ? 1 : 6, 0);
    refused("K with a byte more", plan, len + 1, 6, 0);
    len = codes(plan, 7, 40, 3);
    for (size_t k = 0; k < len; k++)
        refused("a plan with points cut short", plan, k, k < 18 ? 1 : 6, 0);
}

/* The largest file: 1,024 gates, 64 outs, 15 parties. */
static void largest(unsigned version)
{
    static uint8_t plan[MOST_PLAN], want[MOST_PLAN];
    unsigned points[15];
    size_t len = contents_in(version, plan, 15, 7, 65521, 1024, 64);
    for (unsigned g = 0; g < 1024; g++)
        gate(plan, g, g < 15 ? 1 : 2 + g % 4, g < 15 ? g + 1 : g - 1, g < 15 ? 0 : g % 4 == 1 || g % 4 == 2 ? 65520 - g : g / 2);
    for (unsigned o = 0; o < 64; o++)
        out(plan, 1024, o, 1 + o % 15, 1023 - o);
    first_points(points);
    hold("the largest size", in_version(3, want, plan, points) == MOST_PLAN);
    converts("the largest plan", plan, len, want, MOST_PLAN);
}

/* Random plans of versions 1 and 2: the file is the expected one, and its runs, states, mail and matched coins are the old file's. */
static void many_plans(unsigned count)
{
    static struct run r, second, other;
    static uint8_t want[MOST_PLAN];
    unsigned points[15];
    for (unsigned k = 0; k < count; k++) {
        unsigned p = small_prime();
        any_plan(&r, 1, p);
        first_points(points);
        if (k % 2) {
            any_points(points, r.plan[5], p);
            second = r;
            second.plan_len = in_version(2, second.plan, r.plan, points);
            r = second;
            any_triples(&r);
        }
        other.plan_len = in_version(3, want, r.plan, points);
        converts("a random plan", r.plan, r.plan_len, want, other.plan_len);
        memcpy(other.plan, to, other.plan_len);
        same_plan(&r, &other);
    }
}

int main(void)
{
    worked();
    refusals();
    versions_refused();
    order();
    largest(1);
    largest(2);
    many_plans(1000);
    printf("%d passed, %d failed\n", passed, failed);
    return failed != 0;
}
