/* pool_bench: the table of shares, every multiply on its grid of pieces, and the members' view, written as the pieces are dealt. */
#include "lanes.h"

/* A member, and where its next numbers go. */
struct member {
    unsigned seat;
    u8 *figures, *coins, *inputs, *pieces, *outs;
};

/* Parts the view among the members; how long it is. */
static size_t part_view(const struct shape *s, u16 set, u8 *view, struct member *members, unsigned *count)
{
    u8 *at = view;
    for (unsigned seat = 1; seat <= s->n; seat++) {
        if (!(set >> (seat - 1) & 1))
            continue;
        struct member *m = members + (*count)++;
        size_t own = s->inputs_of[seat], coins = s->t * own + (seat <= s->dealers ? product_coins(s) * s->multiplies : 0);
        m->seat = seat;
        m->figures = at;
        m->coins = m->figures + 4 * own;
        m->inputs = m->coins + 4 * coins;
        m->pieces = m->inputs + 4 * s->inputs;
        m->outs = m->pieces + 4 * product_pieces(s) * s->multiplies;
        at = m->outs + 4 * (s->n + 1) * s->outs_of[seat];
    }
    return (size_t)(at - view);
}

static void copy(u8 **to, const u8 *from, size_t len)
{
    memcpy(*to, from, len);
    *to += len;
}

static void see_grid(const struct shape *s, struct member *m, const u8 *coins, row *grid)
{
    const u64 *column = grid[0] + m->seat - 1;
    if (m->seat <= s->dealers)
        copy(&m->coins, coins + 4 * s->t * (m->seat - 1), 4 * s->t);
    for (unsigned d = 0; d < s->dealers; d++)
        put4(m->pieces + 4 * d, column[16 * d]);
    m->pieces += 4 * s->dealers;
}

/* ---- products of version 4 */

/* The members' points, a lane each: their powers. */
struct lanes {
    row powers[16], high_powers[16];
    unsigned vectors;
};

static void fill_lanes(const struct shape *s, const struct masking *m, const struct member *members, unsigned count, struct lanes *l)
{
    memset(l, 0, sizeof *l);
    l->vectors = (count + 1) / 2;
    for (unsigned k = 0; k <= 2 * s->t; k++)
        for (unsigned i = 0; i < count; i++) {
            l->powers[k][i] = m->powers[k][members[i].seat - 1];
            l->high_powers[k][i] = m->high_powers[k][members[i].seat - 1];
        }
}

/* The members' pieces of all seats' dealings of so many coins. */
INLINE void see_dealings(const struct shape *s, const struct lanes *l, struct member *members, unsigned count, const u64 *values, const u8 *coins,
    unsigned terms, int wide)
{
    const struct reducing by = reducing_by(&s->f);
    for (unsigned d = 0; d < s->n; d++, coins += 12 * s->t) {
        V pieces[8];
        row piece;
        for (unsigned v = 0; v < l->vectors; v++)
            pieces[v] = all(values ? values[d] : 0);
        for (unsigned k = 0; k < terms; k++) {
            u32 coin = get4(coins + 4 * k);
            for (unsigned v = 0; v < l->vectors; v++)
                pieces[v] = with_number(pieces[v], coin, load(l->powers[k + 1] + 2 * v), load(l->high_powers[k + 1] + 2 * v), wide);
        }
        for (unsigned v = 0; v < l->vectors; v++)
            store(piece + 2 * v, reduced(&by, pieces[v], wide));
        for (unsigned i = 0; i < count; i++)
            put4(members[i].pieces + 4 * d, piece[i]);
    }
    for (unsigned i = 0; i < count; i++)
        members[i].pieces += 4 * s->n;
}

/* The parts of a member's share: the masked products' polynomials, weighed by its row of the matrix, at all points. */
INLINE void see_parts(const struct shape *s, const struct masking *m, struct member *member, const u64 *masked, const u8 *coins, int wide)
{
    const unsigned terms = (s->t + 2) / 2, vectors = (s->n + 1) / 2;
    const struct reducing by = reducing_by(&s->f);
    V sums[8], parts[8];
    row sum, part;
    for (unsigned k = 0; k < terms; k++)
        sums[k] = _mm_setzero_si128();
    for (unsigned d = 0; d < s->n; d++, coins += 12 * s->t) {
        V w = all(m->matrix[d][member->seat - 1]), high_w = all(m->high_matrix[d][member->seat - 1]);
        for (unsigned k = 0; k < terms; k++)
            sums[k] = with_product(sums[k], terms_of(masked[d], coins, s->t, k), w, high_w, wide);
    }
    for (unsigned k = 0; k < terms; k++)
        store(sum + 2 * k, reduced(&by, sums[k], wide));
    for (unsigned v = 0; v < vectors; v++)
        parts[v] = all(sum[0]);
    for (unsigned k = 1; k <= s->t; k++)
        for (unsigned v = 0; v < vectors; v++)
            parts[v] = with_number(parts[v], sum[k], load(m->powers[k] + 2 * v), load(m->high_powers[k] + 2 * v), wide);
    for (unsigned v = 0; v < vectors; v++)
        store(part + 2 * v, reduced(&by, parts[v], wide));
    for (unsigned j = 0; j < s->n; j++)
        put4(member->pieces + 4 * j, part[j]);
    member->pieces += 4 * s->n;
}

INLINE void see_product(const struct shape *s, const struct masking *m, const struct lanes *l, struct member *members, unsigned count,
    const u64 *masked, const u8 *coins, int wide)
{
    for (unsigned i = 0; i < count; i++)
        copy(&members[i].coins, coins + 12 * s->t * (members[i].seat - 1), 12 * s->t);
    see_dealings(s, l, members, count, NULL, coins, 2 * s->t, wide);
    see_dealings(s, l, members, count, masked, coins + 8 * s->t, s->t, wide);
    for (unsigned i = 0; i < count; i++)
        see_parts(s, m, members + i, masked, coins + 8 * s->t, wide);
}

static void masked_product(const struct shape *s, const struct masking *m, const struct lanes *l, struct member *members, unsigned count,
    const u64 *a, const u64 *b, const u8 *coins, u64 *to)
{
    row masked = {0};
    for (unsigned j = 0; j < s->n; j++)
        masked[j] = mul(&s->f, a[j], b[j]);
    mask_row(s, m, masked, coins, masked);
    if (s->f.wide)
        see_product(s, m, l, members, count, masked, coins, 1);
    else
        see_product(s, m, l, members, count, masked, coins, 0);
    cut_off_row(s, m, masked, to);
}

/* Each sender's inputs in turn. */
static void see_inputs(const struct shape *s, struct member *members, unsigned count, row *table)
{
    u8 *to[16][16];
    for (unsigned i = 0; i < count; i++) {
        u8 *at = members[i].inputs;
        for (unsigned seat = 1; seat <= s->n; seat++) {
            to[i][seat] = at;
            at += 4 * s->inputs_of[seat];
        }
    }
    for (unsigned g = 0; g < s->gates; g++) {
        const u8 *gate = gate_at(s, g);
        if (gate[0] != 1)
            continue;
        u32 seat = field_a(s, gate);
        for (unsigned i = 0; i < count; i++, to[i - 1][seat] += 4)
            put4(to[i][seat], table[g][members[i].seat - 1]);
    }
}

static void see_outs(const struct shape *s, const struct tables *x, struct member *m, row *table)
{
    unsigned own = s->outs_of[m->seat], k = 0;
    for (unsigned o = 0; o < s->outs; o++) {
        const u8 *out = s->outs_at + 3 * o;
        const u64 *shares = table[out_wire(out)];
        u64 sum = 0;
        if (out[0] != m->seat)
            continue;
        for (unsigned j = 0; j < s->n; j++)
            put4(m->outs + 4 * (own * j + k), shares[j]);
        for (unsigned j = 0; j <= s->t; j++)
            sum += mul(&s->f, x->open[j], shares[j]);
        put4(m->outs + 4 * (own * s->n + k), red(&s->f, sum));
        k++;
    }
}

/* Works every gate. */
static void work_gates(const struct shape *s, const struct tables *x, const u8 *figures, const u8 *coins, struct member *members, unsigned count,
    row *table)
{
    static __thread struct masking m;
    struct lanes l;
    row grid[15];
    if (s->masks && s->multiplies) {
        fill_masking(s, &m);
        fill_lanes(s, &m, members, count, &l);
    }
    for (unsigned g = 0; g < s->gates; g++) {
        const u8 *gate = gate_at(s, g);
        if (gate[0] == 5 && s->masks) {
            masked_product(s, &m, &l, members, count, table[field_a(s, gate)], table[field_b(s, gate)], coins, table[g]);
            coins += 12 * s->t * s->n;
        } else if (gate[0] == 5) {
            multiply_on_grid(s, x, table[field_a(s, gate)], table[field_b(s, gate)], coins, grid, table[g]);
            for (unsigned i = 0; i < count; i++)
                see_grid(s, members + i, coins, grid);
            coins += 4 * s->t * s->dealers;
        } else if (gate[0] == 1) {
            deal_row(s, x, get4(figures), coins, table[g]);
            for (unsigned i = 0; i < count; i++)
                if (members[i].seat == field_a(s, gate)) {
                    copy(&members[i].figures, figures, 4);
                    copy(&members[i].coins, coins, 4 * s->t);
                }
            figures += 4;
            coins += 4 * s->t;
        } else {
            work_row(s, gate, table, table[g]);
        }
    }
}

void write_view(const struct shape *s, const struct tables *x, u16 set, const u8 *figures, const u8 *coins, u8 *view)
{
    static __thread row table[1024];
    struct member members[16];
    unsigned count = 0;
    part_view(s, set, view, members, &count);
    work_gates(s, x, figures, coins, members, count, table);
    see_inputs(s, members, count, table);
    for (unsigned i = 0; i < count; i++)
        see_outs(s, x, members + i, table);
}

size_t view_size(const struct shape *s, u16 set)
{
    static u8 none;
    struct member members[16];
    unsigned count = 0;
    return part_view(s, set, &none, members, &count);
}

u64 limit_bench(const u8 *plan, size_t plan_len, u16 set, const u8 *figures, size_t figures_len, const u8 *coins, size_t coins_len, u8 *triples,
    size_t triples_len, u8 *view, size_t view_len)
{
    struct shape s;
    struct tables x;
    (void)triples;
    if (triples_len || read_shape(plan, plan_len, &s) || set >> s.n || (unsigned)__builtin_popcount(set) > s.t)
        return 1;
    size_t dealings = s.inputs + product_pieces(&s) * s.multiplies;
    if (wrong_list(figures, figures_len, s.inputs, (u32)s.f.p) || wrong_list(coins, coins_len, all_coins(&s), (u32)s.f.p) ||
        view_size(&s, set) != view_len)
        return 1;
    fill_tables(&s, &x);
    write_view(&s, &x, set, figures, coins, view);
    return s.n * (dealings + s.outs) << 8;
}
