/* pool_match. At every gate the two runs' polynomials differ by a number times delta, so the second run's row is the first one's plus that number
 * times delta's values at the points; the first run's multiplies are worked at once, since no piece is seen. */
#include "lanes.h"

/* delta: its coefficients from X^1 on, its values at the points, and 2^16 times both. */
struct delta {
    row terms, high_terms, at, high_at;
};

static void fill_delta(const struct shape *s, const struct tables *x, u16 set, struct delta *d)
{
    u64 c[17] = {1};
    for (unsigned seat = 1; seat <= s->n; seat++) {
        if (!(set >> (seat - 1) & 1))
            continue;
        u64 slope = s->f.p - power(&s->f, s->points[seat - 1], s->f.p - 2);
        for (unsigned j = s->t; j > 0; j--)
            c[j] = red(&s->f, c[j] + slope * c[j - 1]);
    }
    memset(d, 0, sizeof *d);
    for (unsigned k = 0; k < s->t; k++) {
        d->terms[k] = c[k + 1];
        d->high_terms[k] = red(&s->f, c[k + 1] << 16);
    }
    for (unsigned j = 0; j < s->n; j++) {
        u64 sum = 0;
        for (unsigned k = 0; k <= s->t; k++)
            sum += mul(&s->f, c[k], x->powers[k][j]);
        d->at[j] = red(&s->f, sum);
        d->high_at[j] = red(&s->f, d->at[j] << 16);
    }
}

/* The plan's own arithmetic. */
static void ideal(const struct shape *s, const u8 *figures, u64 *values)
{
    for (unsigned g = 0; g < s->gates; g++) {
        const u8 *gate = gate_at(s, g);
        u32 a = field_a(s, gate), b = field_b(s, gate);
        if (gate[0] == 1) {
            values[g] = get4(figures);
            figures += 4;
        } else if (gate[0] == 2) {
            values[g] = add(&s->f, values[a], values[b]);
        } else if (gate[0] == 4) {
            values[g] = add(&s->f, values[a], b);
        } else {
            values[g] = mul(&s->f, values[a], gate[0] == 3 ? b : values[b]);
        }
    }
}

/* Whether the lists differ at a member's figure, or their values at a member's out. */
static int differ(const struct shape *s, u16 set, const u8 *first, const u8 *second)
{
    static __thread u64 values[2][1024];
    unsigned k = 0;
    int differs = 0;
    for (unsigned g = 0; g < s->gates; g++) {
        const u8 *gate = gate_at(s, g);
        if (gate[0] != 1)
            continue;
        differs |= (set >> (field_a(s, gate) - 1) & 1) && get4(first + 4 * k) != get4(second + 4 * k);
        k++;
    }
    ideal(s, first, values[0]);
    ideal(s, second, values[1]);
    for (unsigned o = 0; o < s->outs; o++) {
        const u8 *out = s->outs_at + 3 * o;
        differs |= (set >> (out[0] - 1) & 1) && values[0][out_wire(out)] != values[1][out_wire(out)];
    }
    return differs;
}

/* Both runs. */
struct runs {
    const struct shape *s;
    u16 set;
    struct tables x;
    struct masking m;
    struct delta d;
    row *first, *second;
};

/* A dealing's coins moved by a change times delta. */
INLINE void move_coins(const struct runs *r, const struct reducing *by, u64 change, const u8 *coins, u8 *to, int wide)
{
    const struct shape *s = r->s;
    unsigned k = 0;
    for (; k + 2 <= s->t; k += 2) {
        V sum = with_number(load_numbers(coins + 4 * k), change, load(r->d.terms + k), load(r->d.high_terms + k), wide);
        store_numbers(to + 4 * k, reduced(by, sum, wide));
    }
    if (k < s->t)
        put4(to + 4 * k, red(&s->f, get4(coins + 4 * k) + change * r->d.terms[k]));
}

INLINE void move_row(const struct runs *r, const struct reducing *by, unsigned g, u64 change, int wide)
{
    for (unsigned j = 0; j < r->s->n; j += 2) {
        V sum = with_number(load(r->first[g] + j), change, load(r->d.at + j), load(r->d.high_at + j), wide);
        store(r->second[g] + j, reduced(by, sum, wide));
    }
}

/* What the first run's dealers deal, and how the second run's products differ from it. */
INLINE void changes_of(const struct runs *r, const struct reducing *by, u32 a, u32 b, u64 *dealt, u64 *changes, int wide)
{
    const struct field *f = &r->s->f;
    for (unsigned i = 0; i < r->s->dealers && wide; i++) {
        dealt[i] = mul(f, r->first[a][i], r->first[b][i]);
        changes[i] = sub(f, mul(f, r->second[a][i], r->second[b][i]), dealt[i]);
    }
    for (unsigned i = 0; i < r->s->dealers && !wide; i += 2) {
        V x = reduced(by, times(load(r->first[a] + i), load(r->first[b] + i)), 0);
        V y = reduced(by, times(load(r->second[a] + i), load(r->second[b] + i)), 0);
        store(dealt + i, x);
        store(changes + i, below(_mm_sub_epi64(plus(y, by->p), x), by->p));
    }
}

INLINE void match_product(const struct runs *r, const struct reducing *by, unsigned g, const u8 *coins, u8 *to, int wide)
{
    const struct shape *s = r->s;
    const u8 *gate = gate_at(s, g);
    row dealt, changes;
    V sums = _mm_setzero_si128();
    changes_of(r, by, field_a(s, gate), field_b(s, gate), dealt, changes, wide);
    multiply_at_once(s, &r->x, dealt, coins, r->first[g]);
    dealt[s->dealers] = changes[s->dealers] = 0;
    for (unsigned i = 0; i < s->dealers; i += 2)
        sums = with_product(sums, load(changes + i), load(r->x.w + i), load(r->x.high_w + i), wide);
    u64 lanes[2];
    store(lanes, reduced(by, sums, wide));
    move_row(r, by, g, add(&s->f, lanes[0], lanes[1]), wide);
    for (unsigned i = 0; i < s->dealers; i++)
        move_coins(r, by, changes[i], coins + 4 * s->t * i, to + 4 * s->t * i, wide);
}

/* The coefficients of the polynomial through the products' changes, from that of X^0. */
INLINE void change_of(const struct runs *r, const struct reducing *by, const u64 *changes, u64 *to, int wide)
{
    const unsigned vectors = (r->s->n + 1) / 2;
    V sums[8];
    for (unsigned v = 0; v < vectors; v++)
        sums[v] = _mm_setzero_si128();
    for (unsigned i = 0; i < r->s->n; i++)
        for (unsigned v = 0; v < vectors; v++)
            sums[v] = with_number(sums[v], changes[i], load(r->m.basis[i] + 2 * v), load(r->m.high_basis[i] + 2 * v), wide);
    for (unsigned v = 0; v < vectors; v++)
        store(to + 2 * v, reduced(by, sums[v], wide));
}

/* Version 4: the lowest non-member's zeros take up the change but for its value times delta, by which the masked products' dealings then move. */
INLINE void match_masked(const struct runs *r, const struct reducing *by, unsigned g, const u8 *coins, u8 *to, int wide)
{
    const struct shape *s = r->s;
    const u8 *gate = gate_at(s, g);
    const size_t own = 12 * s->t;
    const unsigned lowest = (unsigned)__builtin_ctz(~(unsigned)r->set);
    row dealt = {0}, changes = {0}, masked, change;
    changes_of(r, by, field_a(s, gate), field_b(s, gate), dealt, changes, wide);
    change_of(r, by, changes, change, wide);
    mask_row(s, &r->m, dealt, coins, masked);
    cut_off_row(s, &r->m, masked, r->first[g]);
    move_row(r, by, g, change[0], wide);
    for (unsigned i = 0; i < s->n; i++) {
        memcpy(to + own * i, coins + own * i, 8 * s->t);
        move_coins(r, by, mul(&s->f, change[0], r->d.at[i]), coins + own * i + 8 * s->t, to + own * i + 8 * s->t, wide);
    }
    for (unsigned k = 0; k < 2 * s->t; k++) {
        u64 kept = k < s->t ? mul(&s->f, change[0], r->d.terms[k]) : 0;
        put4(to + own * lowest + 4 * k, add(&s->f, get4(coins + own * lowest + 4 * k), sub(&s->f, kept, change[k + 1])));
    }
}

INLINE void match_gates(const struct runs *r, const u8 *first, const u8 *second, const u8 *coins, u8 *matched, int wide)
{
    const struct shape *s = r->s;
    const struct reducing by = reducing_by(&s->f);
    for (unsigned g = 0; g < s->gates; g++) {
        const u8 *gate = gate_at(s, g);
        size_t taken = 0;
        if (gate[0] == 5) {
            if (s->masks)
                match_masked(r, &by, g, coins, matched, wide);
            else
                match_product(r, &by, g, coins, matched, wide);
            taken = 4 * product_coins(s) * s->dealers;
        } else if (gate[0] == 1) {
            u64 change = sub(&s->f, get4(second), get4(first));
            deal_row(s, &r->x, get4(first), coins, r->first[g]);
            move_row(r, &by, g, change, wide);
            move_coins(r, &by, change, coins, matched, wide);
            first += 4;
            second += 4;
            taken = 4 * s->t;
        } else {
            work_row(s, gate, r->first, r->first[g]);
            work_row(s, gate, r->second, r->second[g]);
        }
        coins += taken;
        matched += taken;
    }
}

u64 limit_match(const u8 *plan, size_t plan_len, u16 set, const u8 *first, size_t first_len, const u8 *second, size_t second_len, const u8 *coins,
    size_t coins_len, u8 *matched, size_t matched_len)
{
    static __thread row tables[2][1024];
    struct shape s;
    struct runs r;
    r.s = &s;
    r.set = set;
    r.first = tables[0];
    r.second = tables[1];
    if (read_shape(plan, plan_len, &s) || set >> s.n || (unsigned)__builtin_popcount(set) > s.t)
        return 1;
    u32 p = (u32)s.f.p;
    if (wrong_list(first, first_len, s.inputs, p) || wrong_list(second, second_len, s.inputs, p) || wrong_list(coins, coins_len, all_coins(&s), p) ||
        matched_len != coins_len || differ(&s, set, first, second))
        return 1;
    fill_tables(&s, &r.x);
    fill_delta(&s, &r.x, set, &r.d);
    if (s.masks && s.multiplies)
        fill_masking(&s, &r.m);
    if (s.f.wide)
        match_gates(&r, first, second, coins, matched, 1);
    else
        match_gates(&r, first, second, coins, matched, 0);
    return 0;
}
