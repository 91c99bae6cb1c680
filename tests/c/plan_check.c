/* Checks plans over the static library: plan K, its bounds, and what is refused. */
#include "plans.h"

/* A plan of so many input gates of party 1, with one out. */
static size_t plan_of(uint8_t *plan, unsigned gates)
{
    contents(plan, 3, 1, 11, gates, 1);
    for (unsigned g = 0; g < gates; g++) {
        gate(plan, g, 1, 1, 0);
    }
    out(plan, gates, 0, 3, gates - 1);
    return 18 + 6 * (size_t)gates + 3;
}

static void check_k(void)
{
    uint8_t plan[64];
    size_t len = plan_k(plan);
    expect("K", pool_plan_check(plan, len), 0, 0);

    /* every truncation is refused: under 18 bytes by 1, longer ones by 6 */
    for (size_t k = 0; k < len; k++) {
        expect("K cut short", pool_plan_check(plan, k), k < 18 ? 1 : 6, 0);
    }
    plan[len] = 0;
    expect("K with a byte more", pool_plan_check(plan, len + 1), 6, 0);
}

/* One byte of K changed. */
static void changed(const char *what, size_t at, unsigned v, unsigned number, uint32_t place)
{
    uint8_t plan[64];
    size_t len = plan_k(plan);
    plan[at] = v;
    expect(what, pool_plan_check(plan, len), number, place);
}

static void check_refusals(void)
{
    changed("letters", 0, 'p', 1, 0);
    changed("letters", 3, 'K', 1, 0);
    changed("version", 4, 9, 2, 0);
    changed("a version 2 without points", 4, 2, 6, 0);
    changed("no party", 5, 0, 3, 0);
    changed("16 parties", 5, 16, 3, 0);
    changed("n=2, t=1", 5, 2, 8, 0);
    changed("t is n", 6, 3, 4, 0);
    changed("2t is n + 1", 6, 2, 25, 0);
    changed("p=9", 8, 9, 5, 0);
    changed("p=3", 8, 3, 5, 0);
    changed("p=1", 8, 1, 5, 0);
    changed("byte 7", 7, 1, 6, 0);
    changed("gates' offset", 10, 19, 6, 0);
    changed("no gates", 12, 0, 6, 0);
    changed("outs' offset", 14, 41, 6, 0);
    changed("no outs", 16, 0, 6, 0);
    changed("gate 0 an add", 18, 2, 7, 0);
    changed("kind 0", 18, 0, 7, 0);
    changed("kind 6 with an a", 24, 6, 7, 1);
    changed("kind 7 of a later wire", 24, 7, 7, 1);
    changed("kind 7 for the multiply", 30, 7, 0, 0);
    changed("kind 8", 24, 8, 7, 1);
    changed("second byte", 25, 1, 7, 1);
    changed("an input of party 4", 20, 4, 7, 0);
    changed("an input with a b", 22, 1, 7, 0);
    changed("wire 2 reads itself", 32, 2, 7, 2);
    changed("wire 3 reads itself", 40, 3, 7, 3);
    changed("an out of party 0", 42, 0, 8, 0);
    changed("an out of party 4", 42, 4, 8, 0);
    changed("an out of wire 4", 43, 4, 8, 0);
}

static void check_constants(void)
{
    uint8_t plan[64];
    size_t len = plan_k(plan);
    gate(plan, 3, 3, 2, 0);
    expect("scale by 0", pool_plan_check(plan, len), 0, 0);
    gate(plan, 3, 3, 2, 10);
    expect("scale by p - 1", pool_plan_check(plan, len), 0, 0);
    gate(plan, 3, 3, 2, 11);
    expect("scale by p", pool_plan_check(plan, len), 7, 3);
    gate(plan, 3, 4, 2, 10);
    expect("offset by p - 1", pool_plan_check(plan, len), 0, 0);
    gate(plan, 3, 4, 2, 11);
    expect("offset by p", pool_plan_check(plan, len), 7, 3);
    gate(plan, 2, 5, 1, 1);
    gate(plan, 3, 2, 2, 0);
    expect("a square", pool_plan_check(plan, len), 0, 0);
}

static void check_bounds(void)
{
    static uint8_t plan[18 + 6 * 1025 + 3 * 65];
    size_t len = plan_of(plan, 1);
    expect("1 gate", pool_plan_check(plan, len), 0, 0);
    len = plan_of(plan, 1024);
    expect("1,024 gates", pool_plan_check(plan, len), 0, 0);
    len = plan_of(plan, 1025);
    expect("1,025 gates", pool_plan_check(plan, len), 6, 0);
    len = plan_of(plan, 1024);
    gate(plan, 1023, 2, 1023, 0);
    expect("the last gate reads itself", pool_plan_check(plan, len), 7, 1023);

    /* one input, then gates of kind 7 alone: 341 of them, and one more */
    len = plan_of(plan, 342);
    for (unsigned g = 1; g < 342; g++) {
        gate(plan, g, 7, 0, g - 1);
    }
    expect("341 gates of kind 7", pool_plan_check(plan, len), 0, 0);
    gate(plan, 1, 7, 0, 1);
    expect("the first of them reads itself", pool_plan_check(plan, len), 7, 1);
    len = plan_of(plan, 344);
    for (unsigned g = 1; g < 344; g++) {
        gate(plan, g, 7, 0, 0);
    }
    expect("343 gates of kind 7", pool_plan_check(plan, len), 7, 342);
    gate(plan, 343, 7, 0, 343);
    expect("the limit before a later gate's wire", pool_plan_check(plan, len), 7, 342);
    gate(plan, 300, 6, 0, 0);
    gate(plan, 343, 7, 0, 342);
    expect("342 gates of kind 7, one in between of kind 6", pool_plan_check(plan, len), 7, 343);

    contents(plan, 3, 1, 11, 1, 0);
    gate(plan, 0, 1, 1, 0);
    expect("no outs", pool_plan_check(plan, 18 + 6), 0, 0);
    expect("no outs, and a byte more", pool_plan_check(plan, 18 + 7), 6, 0);

    for (unsigned outs = 64; outs <= 65; outs++) {
        contents(plan, 3, 1, 11, 1, outs);
        gate(plan, 0, 1, 1, 0);
        for (unsigned o = 0; o < outs; o++) {
            out(plan, 1, o, 1 + o % 3, 0);
        }
        expect("64 and 65 outs", pool_plan_check(plan, 18 + 6 + 3 * outs), outs == 64 ? 0 : 6, 0);
    }
    contents(plan, 3, 1, 11, 1, 64);
    out(plan, 1, 63, 1, 1);
    expect("the last out's wire", pool_plan_check(plan, 18 + 6 + 3 * 64), 8, 63);
}

/* n, t and p of a plan with one input gate and one out. */
static void field_of(unsigned n, unsigned t, unsigned p, unsigned number)
{
    uint8_t plan[27];
    contents(plan, n, t, p, 1, 1);
    gate(plan, 0, 1, 1, 0);
    out(plan, 1, 0, 1, 0);
    expect("n, t, p", pool_plan_check(plan, sizeof plan), number, 0);
}

static void check_fields(void)
{
    field_of(1, 0, 2, 0);
    field_of(2, 1, 11, 0);
    field_of(2, 2, 11, 4);
    field_of(15, 7, 17, 0);
    field_of(15, 7, 13, 5);
    field_of(15, 14, 17, 0);
    field_of(15, 15, 17, 4);
    field_of(16, 7, 17, 3);
    field_of(3, 1, 3, 5);
    field_of(3, 1, 9, 5);
    field_of(3, 1, 65521, 0);
    field_of(3, 1, 65535, 5);
    field_of(3, 1, 0, 5);
    field_of(0, 0, 1, 3);
}

int main(void)
{
    check_k();
    check_refusals();
    check_constants();
    check_bounds();
    check_fields();
    printf("%d passed, %d failed\n", passed, failed);
    return failed != 0;
}
