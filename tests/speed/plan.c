/* The plan check, and what is counted of a plan. Trial division tries 2, 3 and 6k - 1, 6k + 1. */
#include "limit.h"

struct field field_of(u32 p)
{
    struct field f = {.p = p, .inverse = ~(u64)0 / p, .wide = p > 65535};
    int bits = 32 - __builtin_clz(p);
    f.shift = bits > 3 ? bits - 3 : 0;
    f.m = f.wide ? ((u64)1 << 48) / p : ((u64)1 << (f.shift + 29)) / p;
    return f;
}

u64 power(const struct field *f, u64 a, u64 e)
{
    u64 r = 1;
    for (; e; e >>= 1, a = mul(f, a, a))
        r = e & 1 ? mul(f, r, a) : r;
    return r;
}

/* Weight i is the product of x_j / (x_j - x_i) over the others j: all points' product over x_i and these differences. */
void weights(const struct field *f, const u32 *points, unsigned count, u64 *w)
{
    u64 below[16], before[17] = {1}, all = 1, inverse;
    for (unsigned i = 0; i < count; i++) {
        all = mul(f, all, points[i]);
        below[i] = points[i];
    }
    for (unsigned i = 0; i < count; i++)
        for (unsigned j = 0; j < count; j++)
            below[j] = mul(f, below[j], i == j ? 1 : sub(f, points[i], points[j]));
    for (unsigned i = 0; i < count; i++)
        before[i + 1] = mul(f, before[i], below[i]);
    inverse = mul(f, power(f, before[count], f->p - 2), all);
    for (unsigned i = count; i-- > 0;) {
        w[i] = mul(f, inverse, before[i]);
        inverse = mul(f, inverse, below[i]);
    }
}

static int is_prime(u32 p)
{
    if (p < 4)
        return p > 1;
    if (p % 2 == 0 || p % 3 == 0)
        return 0;
    for (u32 d = 5; (u64)d * d <= p; d += 6)
        if (p % d == 0 || p % (d + 2) == 0)
            return 0;
    return 1;
}

/* Whether a gate breaks its kind's rule. All gates are looked at, and counted. */
INLINE unsigned wrong_gates(struct shape *s, unsigned seat, unsigned width)
{
    const u8 *at = s->gates_at;
    unsigned wrong = 0, multiplies = 0, inputs = 0, draws = 0, spends = 0, own = 0, gates = s->gates, n = s->n;
    u32 p = (u32)s->f.p;
    for (unsigned g = 0; g < gates; g++, at += 2 + 2 * width) {
        unsigned kind = at[0];
        u32 a = get_of(at + 2, width), b = get_of(at + 2 + width, width);
        wrong |= at[1];
        if (kind == 5) {
            wrong |= (a >= g) | (b >= g);
            multiplies++;
        } else if (kind == 1) {
            wrong |= (a - 1 >= n) | b;
            inputs++;
            own += a == seat;
        } else if (kind == 7) {
            wrong |= (a >= g) | (b >= g) | (++spends > 341);
        } else if (kind == 6) {
            wrong |= (a | b) != 0;
            draws++;
        } else {
            wrong |= (kind - 2 >= 3) | (a >= g) | (b >= (kind == 2 ? g : p));
        }
    }
    s->multiplies = multiplies;
    s->inputs = inputs;
    s->draws = draws;
    s->spends = spends;
    s->own = own;
    return wrong;
}

static unsigned wrong_points(struct shape *s, const u8 *at)
{
    unsigned wrong = 0;
    for (unsigned i = 0; i < s->n; i++) {
        s->points[i] = get_of(at + s->width * i, s->width);
        wrong |= s->points[i] == 0 || s->points[i] >= s->f.p;
        for (unsigned j = 0; j < i; j++)
            wrong |= s->points[i] == s->points[j];
    }
    return wrong;
}

int read_plan(const u8 *plan, size_t len, unsigned seat, struct shape *s)
{
    if (len < 18 || memcmp(plan, "POOL", 4) || plan[4] < 1 || plan[4] > 4 || plan[5] < 1 || plan[5] > 15 || plan[6] >= plan[5])
        return 1;
    unsigned width = plan[4] > 2 ? 4 : 2, head = plan[4] == 1 ? 18 : plan[4] == 2 ? 20 : 32, n = plan[5], wrong;
    u32 p = get_of(plan + 8, width);
    if (p <= n || p > 2147483647 || !is_prime(p) || len < head || plan[7])
        return 1;
    u32 gates_at = get_of(plan + 8 + width, width), gates = get_of(plan + 8 + 2 * width, width);
    u32 outs_at = get_of(plan + 8 + 3 * width, width), outs = get_of(plan + 8 + 4 * width, width);
    if (gates_at != head || gates - 1 > 1023 || outs_at != head + (2 + 2 * width) * gates || outs > 64)
        return 1;
    u32 points_at = outs_at + 3 * outs;
    if (len != points_at + (plan[4] == 1 ? 0 : width * n) || (plan[4] != 1 && get_of(plan + 8 + 5 * width, width) != points_at))
        return 1;
    *s = (struct shape){.f = field_of(p), .n = n, .t = plan[6], .masks = plan[4] == 4, .gates = gates, .outs = outs, .width = width, .gate = 2 + 2 * width,
        .gates_at = plan + head, .outs_at = plan + outs_at};
    wrong = width == 2 ? wrong_gates(s, seat, 2) : wrong_gates(s, seat, 4);
    for (unsigned o = 0; o < outs; o++)
        wrong |= (s->outs_at[3 * o] - 1u >= n) | (out_wire(s->outs_at + 3 * o) >= gates);
    wrong |= (s->multiplies || s->spends) && 2 * s->t >= n;
    for (unsigned i = 0; i < n; i++)
        s->points[i] = i + 1;
    s->dealers = !s->multiplies ? 0 : s->masks ? n : 2 * s->t + 1;
    return wrong || (plan[4] != 1 && wrong_points(s, plan + points_at));
}

u64 limit_plan_check(const u8 *plan, size_t plan_len)
{
    struct shape s;
    return (u64)read_plan(plan, plan_len, 0, &s);
}

void count_inputs(struct shape *s)
{
    for (unsigned g = 0, left = s->inputs; left > 0; g++) {
        const u8 *at = gate_at(s, g);
        if (at[0] == 1) {
            s->inputs_of[field_a(s, at)]++;
            left--;
        }
    }
}

void count_outs(struct shape *s)
{
    for (unsigned o = 0; o < s->outs; o++)
        s->outs_of[s->outs_at[3 * o]]++;
}

int read_shape(const u8 *plan, size_t plan_len, struct shape *s)
{
    if (read_plan(plan, plan_len, 0, s) || s->draws || s->spends)
        return 1;
    count_inputs(s);
    count_outs(s);
    return 0;
}
