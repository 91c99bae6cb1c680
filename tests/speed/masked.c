/* Rows of products of version 4: what is filled once for a plan, the zeros' sum, and the wire from the masked products. */
#include "lanes.h"

/* ---- once for a plan */

/* The product of X - x over all points, from its coefficient of X^0. */
static void all_points(const struct shape *s, u64 *c)
{
    memset(c, 0, 17 * sizeof *c);
    c[0] = 1;
    for (unsigned i = 0; i < s->n; i++)
        for (unsigned k = i + 2; k-- > 0;)
            c[k] = sub(&s->f, k ? c[k - 1] : 0, mul(&s->f, s->points[i], c[k]));
}

/* One over the product of each point's differences to the others, by one inverse. */
static void inverses(const struct shape *s, u64 *to)
{
    u64 below[16], before[17] = {1}, inverse;
    for (unsigned i = 0; i < s->n; i++) {
        below[i] = 1;
        for (unsigned j = 0; j < s->n; j++)
            below[i] = mul(&s->f, below[i], i == j ? 1 : sub(&s->f, s->points[i], s->points[j]));
        before[i + 1] = mul(&s->f, before[i], below[i]);
    }
    inverse = power(&s->f, before[s->n], s->f.p - 2);
    for (unsigned i = s->n; i-- > 0;) {
        to[i] = mul(&s->f, inverse, before[i]);
        inverse = mul(&s->f, inverse, below[i]);
    }
}

void basis_rows(const struct shape *s, row *to)
{
    u64 all[17], scale[16];
    all_points(s, all);
    inverses(s, scale);
    for (unsigned i = 0; i < s->n; i++) {
        u64 q = 0;
        memset(to[i], 0, sizeof to[i]);
        for (unsigned k = s->n; k > 0; k--) {
            q = red(&s->f, all[k] + s->points[i] * q);
            to[i][k - 1] = mul(&s->f, q, scale[i]);
        }
    }
}

static void raise(const struct shape *s, row *from, row *to)
{
    for (unsigned i = 0; i < 16; i++)
        for (unsigned j = 0; j < 16; j++)
            to[i][j] = red(&s->f, from[i][j] << 16);
}

void fill_masking(const struct shape *s, struct masking *m)
{
    memset(m, 0, sizeof *m);
    for (unsigned j = 0; j < s->n; j++) {
        u64 v = 1;
        for (unsigned k = 0; k <= 2 * s->t; k++, v = mul(&s->f, v, s->points[j]))
            m->powers[k][j] = v;
    }
    basis_rows(s, m->basis);
    for (unsigned i = 0; i < s->n; i++)
        for (unsigned j = 0; j < s->n; j++) {
            u64 sum = 0;
            for (unsigned k = s->t + 1; k-- > 0;)
                sum = red(&s->f, sum * s->points[j] + m->basis[i][k]);
            m->matrix[i][j] = sum;
        }
    raise(s, m->powers, m->high_powers);
    raise(s, m->basis, m->high_basis);
    raise(s, m->matrix, m->high_matrix);
}

/* ---- for a product */

INLINE void mask_by(const struct shape *s, const struct masking *m, const u64 *products, const u8 *coins, u64 *to, int wide)
{
    const unsigned vectors = (s->n + 1) / 2, terms = 2 * s->t;
    const struct reducing by = reducing_by(&s->f);
    u64 sums[16] = {0};
    V values[8];
    for (unsigned d = 0; d < s->n; d++, coins += 12 * s->t)
        for (unsigned k = 0; k < terms; k += 2)
            store(sums + k, plus(load(sums + k), load_numbers(coins + 4 * k)));
    for (unsigned v = 0; v < vectors; v++)
        values[v] = load(products + 2 * v);
    for (unsigned k = 0; k < terms; k++) {
        u64 sum = red(&s->f, sums[k]);
        for (unsigned v = 0; v < vectors; v++)
            values[v] = with_number(values[v], sum, load(m->powers[k + 1] + 2 * v), load(m->high_powers[k + 1] + 2 * v), wide);
    }
    for (unsigned v = 0; v < vectors; v++)
        store(to + 2 * v, reduced(&by, values[v], wide));
}

void mask_row(const struct shape *s, const struct masking *m, const u64 *products, const u8 *coins, u64 *to)
{
    if (s->f.wide)
        mask_by(s, m, products, coins, to, 1);
    else
        mask_by(s, m, products, coins, to, 0);
}

INLINE void cut_off_by(const struct shape *s, const struct masking *m, const u64 *masked, u64 *to, int wide)
{
    const unsigned vectors = (s->n + 1) / 2;
    const struct reducing by = reducing_by(&s->f);
    V sums[8];
    for (unsigned v = 0; v < vectors; v++)
        sums[v] = _mm_setzero_si128();
    for (unsigned i = 0; i < s->n; i++)
        for (unsigned v = 0; v < vectors; v++)
            sums[v] = with_number(sums[v], masked[i], load(m->matrix[i] + 2 * v), load(m->high_matrix[i] + 2 * v), wide);
    for (unsigned v = 0; v < vectors; v++)
        store(to + 2 * v, reduced(&by, sums[v], wide));
}

void cut_off_row(const struct shape *s, const struct masking *m, const u64 *masked, u64 *to)
{
    if (s->f.wide)
        cut_off_by(s, m, masked, to, 1);
    else
        cut_off_by(s, m, masked, to, 0);
}
