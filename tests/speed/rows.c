/* Rows of shares, a lane for each seat: dealings, gates, and a multiply in two ways. */
#include "lanes.h"

/* ---- once for a plan */

void fill_tables(const struct shape *s, struct tables *x)
{
    memset(x, 0, sizeof *x);
    for (unsigned j = 0; j < s->n; j++) {
        u64 v = 1;
        for (unsigned k = 0; k <= s->t; k++, v = mul(&s->f, v, s->points[j])) {
            x->powers[k][j] = v;
            x->high_powers[k][j] = red(&s->f, v << 16);
        }
    }
    if (s->dealers && !s->masks)
        weights(&s->f, s->points, s->dealers, x->w);
    for (unsigned d = 0; d < s->dealers; d++)
        x->high_w[d] = red(&s->f, x->w[d] << 16);
    weights(&s->f, s->points, s->t + 1, x->open);
}

/* ---- dealings and gates */

void deal_row(const struct shape *s, const struct tables *x, u64 value, const u8 *coins, u64 *to)
{
    for (unsigned j = 0; j < s->n; j++) {
        u64 sum = value;
        for (unsigned k = 0; k < s->t; k++)
            sum += mul(&s->f, get4(coins + 4 * k), x->powers[k + 1][j]);
        to[j] = red(&s->f, sum);
    }
}

void work_row(const struct shape *s, const u8 *gate, row *table, u64 *to)
{
    u32 a = field_a(s, gate), b = field_b(s, gate);
    for (unsigned j = 0; j < s->n; j++)
        to[j] = gate[0] == 2 ? add(&s->f, table[a][j], table[b][j]) : gate[0] == 3 ? mul(&s->f, table[a][j], b) : add(&s->f, table[a][j], b);
}

/* Each dealer's product of two shares. */
INLINE void products(const struct shape *s, const struct reducing *b, const u64 *a, const u64 *c, u64 *to, unsigned vectors, int wide)
{
    if (!wide) {
        EACH(v) store(to + 2 * v, reduced(b, times(load(a + 2 * v), load(c + 2 * v)), 0));
    } else {
        for (unsigned j = 0; j < 2 * vectors; j++)
            to[j] = mul(&s->f, a[j], c[j]);
    }
}

INLINE void grid_gate(const struct shape *s, const struct tables *x, const u64 *a, const u64 *b, const u8 *coins, row *grid, u64 *to, unsigned t,
    unsigned lanes, int wide)
{
    const unsigned vectors = lanes / 2, dealers = 2 * t + 1;
    const struct reducing by = reducing_by(&s->f);
    row dealt;
    V sums[8];
    products(s, &by, a, b, dealt, vectors, wide);
    EACH(v) sums[v] = _mm_setzero_si128();
    for (unsigned d = 0; d < dealers; d++) {
        V pieces[8];
        EACH(v) pieces[v] = all(dealt[d]);
#pragma GCC unroll 8
        for (unsigned k = 0; k < t; k++) {
            u32 coin = get4(coins + 4 * (d * t + k));
            EACH(v) pieces[v] = with_number(pieces[v], coin, load(x->powers[k + 1] + 2 * v), load(x->high_powers[k + 1] + 2 * v), wide);
        }
        V w = all(x->w[d]), high_w = all(x->high_w[d]);
        EACH(v) {
            V piece = reduced(&by, pieces[v], wide);
            store(grid[d] + 2 * v, piece);
            sums[v] = with_product(sums[v], piece, w, high_w, wide);
        }
    }
    EACH(v) store(to + 2 * v, reduced(&by, sums[v], wide));
}

INLINE void gate_at_once(const struct shape *s, const struct tables *x, const u64 *dealt, const u8 *coins, u64 *to, unsigned t, unsigned lanes, int wide)
{
    const unsigned vectors = lanes / 2, dealers = 2 * t + 1, terms = (t + 2) / 2;
    const struct reducing by = reducing_by(&s->f);
    row sum;
    V sums[4], shares[8];
#pragma GCC unroll 4
    for (unsigned k = 0; k < terms; k++)
        sums[k] = _mm_setzero_si128();
    for (unsigned d = 0; d < dealers; d++) {
        V w = all(x->w[d]), high_w = all(x->high_w[d]);
#pragma GCC unroll 4
        for (unsigned k = 0; k < terms; k++)
            sums[k] = with_product(sums[k], terms_of(dealt[d], coins + 4 * d * t, t, k), w, high_w, wide);
    }
#pragma GCC unroll 4
    for (unsigned k = 0; k < terms; k++)
        store(sum + 2 * k, reduced(&by, sums[k], wide));
    EACH(v) shares[v] = all(sum[0]);
#pragma GCC unroll 8
    for (unsigned k = 1; k <= t; k++) {
        EACH(v) shares[v] = with_number(shares[v], sum[k], load(x->powers[k] + 2 * v), load(x->high_powers[k] + 2 * v), wide);
    }
    EACH(v) store(to + 2 * v, reduced(&by, shares[v], wide));
}

/* A function for each t, count of lanes and width, in which all three are constants. */
#define BY_LANES(t, gate, ...) \
    case t: \
        if (s->n <= 4) \
            gate(__VA_ARGS__, t, 4, wide); \
        else if (s->n <= 8) \
            gate(__VA_ARGS__, t, 8, wide); \
        else \
            gate(__VA_ARGS__, t, 16, wide); \
        break;
#define BY_ALL(gate, ...) \
    switch (s->t) { \
        BY_LANES(0, gate, __VA_ARGS__) \
        BY_LANES(1, gate, __VA_ARGS__) \
        BY_LANES(2, gate, __VA_ARGS__) \
        BY_LANES(3, gate, __VA_ARGS__) \
        BY_LANES(4, gate, __VA_ARGS__) \
        BY_LANES(5, gate, __VA_ARGS__) \
        BY_LANES(6, gate, __VA_ARGS__) \
        BY_LANES(7, gate, __VA_ARGS__) \
    }

INLINE void grid_by(const struct shape *s, const struct tables *x, const u64 *a, const u64 *b, const u8 *coins, row *grid, u64 *to, int wide)
{
    BY_ALL(grid_gate, s, x, a, b, coins, grid, to)
}

INLINE void at_once_by(const struct shape *s, const struct tables *x, const u64 *dealt, const u8 *coins, u64 *to, int wide)
{
    BY_ALL(gate_at_once, s, x, dealt, coins, to)
}

void multiply_on_grid(const struct shape *s, const struct tables *x, const u64 *a, const u64 *b, const u8 *coins, row *grid, u64 *to)
{
    if (s->f.wide)
        grid_by(s, x, a, b, coins, grid, to, 1);
    else
        grid_by(s, x, a, b, coins, grid, to, 0);
}

void multiply_at_once(const struct shape *s, const struct tables *x, const u64 *dealt, const u8 *coins, u64 *to)
{
    if (s->f.wide)
        at_once_by(s, x, dealt, coins, to, 1);
    else
        at_once_by(s, x, dealt, coins, to, 0);
}
