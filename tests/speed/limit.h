/* What the library is timed against: its calls written by hand in C, for plain x86-64 with explicit vectors. On a call without a fault they write the
 * bytes that the library writes and answer what it answers. They look for every fault that it looks for, but do not tell one from another: the
 * answer is 1 then. Plans with random wires or triples are checked alone: the other calls answer 1 for them. */
#ifndef LIMIT_H
#define LIMIT_H

#include <emmintrin.h>
#include <stddef.h>
#include <stdint.h>
#include <string.h>

typedef uint8_t u8;
typedef uint16_t u16;
typedef uint32_t u32;
typedef uint64_t u64;

#define INLINE static inline __attribute__((always_inline))

u64 limit_plan_check(const u8 *plan, size_t plan_len);
u64 limit_bench(const u8 *plan, size_t plan_len, u16 set, const u8 *figures, size_t figures_len, const u8 *coins, size_t coins_len, u8 *triples,
    size_t triples_len, u8 *view, size_t view_len);
u64 limit_seat_call(const u8 *plan, size_t plan_len, u16 seat, const u8 *figures, size_t figures_len, const u8 *coins, size_t coins_len, u8 *triples,
    size_t triples_len, u8 *state, size_t state_len, const u8 *mail, size_t mail_len, u8 *out, size_t out_len);
u64 limit_match(const u8 *plan, size_t plan_len, u16 set, const u8 *first, size_t first_len, const u8 *second, size_t second_len, const u8 *coins,
    size_t coins_len, u8 *matched, size_t matched_len);
u64 limit_count(const u8 *plan, size_t plan_len, u16 set, const u8 *figures, size_t figures_len, const u8 *coins, size_t coins_len, u8 *rows,
    size_t rows_len);

/* ---- numbers in bytes */

INLINE u32 get2(const u8 *at)
{
    u16 x;
    memcpy(&x, at, 2);
    return x;
}

INLINE u32 get4(const u8 *at)
{
    u32 x;
    memcpy(&x, at, 4);
    return x;
}

INLINE u32 get_of(const u8 *at, unsigned width)
{
    return width == 2 ? get2(at) : get4(at);
}

INLINE void put4(u8 *at, u64 x)
{
    u32 y = (u32)x;
    memcpy(at, &y, 4);
}

/* Whether a list has another count of numbers, or one that is not below p. */
static inline int wrong_list(const u8 *at, size_t len, size_t count, u32 p)
{
    if (len != 4 * count)
        return 1;
    __m128i most = _mm_set1_epi32((int)p - 1), bad[2] = {_mm_setzero_si128(), _mm_setzero_si128()};
    size_t i = 0;
#pragma GCC unroll 4
    for (; i + 8 <= count; i += 8)
        for (int k = 0; k < 2; k++) {
            __m128i x = _mm_loadu_si128((const __m128i *)(at + 4 * i + 16 * k));
            bad[k] = _mm_or_si128(bad[k], _mm_or_si128(x, _mm_cmpgt_epi32(x, most)));
        }
    int wrong = _mm_movemask_ps(_mm_castsi128_ps(_mm_or_si128(bad[0], bad[1]))) != 0;
    for (; i < count; i++)
        wrong |= get4(at + 4 * i) >= p;
    return wrong;
}

/* ---- the field */

struct field {
    u64 p, inverse; /* the inverse is 2^64 / p */
    u64 m;          /* 2^(shift + 29) / p for a p of 16 bits; 2^48 / p for a larger one */
    int wide, shift;
};

/* Any x. */
INLINE u64 red(const struct field *f, u64 x)
{
    u64 r = x - (u64)((unsigned __int128)x * f->inverse >> 64) * f->p;
    return r < f->p ? r : r - f->p;
}

INLINE u64 mul(const struct field *f, u64 a, u64 b)
{
    return red(f, a * b);
}

INLINE u64 sub(const struct field *f, u64 a, u64 b)
{
    return a < b ? a + f->p - b : a - b;
}

INLINE u64 add(const struct field *f, u64 a, u64 b)
{
    return a + b < f->p ? a + b : a + b - f->p;
}

struct field field_of(u32 p);
u64 power(const struct field *f, u64 a, u64 e);

/* The weights at 0 of so many points, by one inverse. */
void weights(const struct field *f, const u32 *points, unsigned count, u64 *w);

/* ---- the plan */

/* A plan that passes, and its gates counted. */
struct shape {
    struct field f;
    unsigned n, t, dealers, gates, outs; /* the dealers are 2t + 1, in version 4 all, or none where nothing is multiplied */
    int masks;                           /* version 4: products are masked and cut off */
    unsigned width, gate;                /* the bytes of a number of the file, and of a gate */
    const u8 *gates_at, *outs_at;
    u32 points[16];
    unsigned inputs, multiplies, draws, spends, own; /* the last: inputs of the seat that was asked for */
    unsigned inputs_of[16], outs_of[16]; /* by seat, from 1 on */
};

/* Reads a plan: 1 where it does not pass. The counts by seat are made apart; the second makes both. */
int read_plan(const u8 *plan, size_t plan_len, unsigned seat, struct shape *s);
int read_shape(const u8 *plan, size_t plan_len, struct shape *s);
void count_inputs(struct shape *s);
void count_outs(struct shape *s);

/* The coins of a dealer at a multiply, the rounds that it takes, and the pieces that each seat receives for it. */
INLINE size_t product_coins(const struct shape *s)
{
    return s->masks ? 3 * s->t : s->t;
}

INLINE unsigned product_rounds(const struct shape *s)
{
    return s->masks ? 3 : 1;
}

INLINE size_t product_pieces(const struct shape *s)
{
    return (size_t)product_rounds(s) * s->dealers;
}

/* All coins of a plan. */
INLINE size_t all_coins(const struct shape *s)
{
    return (size_t)s->t * s->inputs + product_coins(s) * s->dealers * s->multiplies;
}

INLINE const u8 *gate_at(const struct shape *s, unsigned g)
{
    return s->gates_at + s->gate * g;
}

INLINE u32 field_a(const struct shape *s, const u8 *gate)
{
    return get_of(gate + 2, s->width);
}

INLINE u32 field_b(const struct shape *s, const u8 *gate)
{
    return get_of(gate + 2 + s->width, s->width);
}

INLINE unsigned out_wire(const u8 *out)
{
    return get2(out + 1);
}

/* ---- rows: a number for each seat, as lanes of 64 bits */

typedef u64 row[16] __attribute__((aligned(16)));

/* What the gates of a plan take: the powers of the points, a row for each, and the dealers' weights, with 2^16 times both; and the weights of the
 * first t + 1 points, by which outs are opened. */
struct tables {
    row powers[16], high_powers[16];
    row w, high_w;
    u64 open[16];
};

void fill_tables(const struct shape *s, struct tables *x);

/* What the products of version 4 take besides: the powers of the points up to 2t, the coefficients of the basis polynomials, a row for each point, and
 * the matrix, a row for each of its columns; each with 2^16 times the same. */
struct masking {
    row powers[16], high_powers[16], basis[16], high_basis[16], matrix[16], high_matrix[16];
};

void fill_masking(const struct shape *s, struct masking *m);

/* The coefficients of the basis polynomials of the points, from that of X^0, a row for each point. */
void basis_rows(const struct shape *s, row *to);

/* The masked products from the seats' own: all zeros' values at the points are added. */
void mask_row(const struct shape *s, const struct masking *m, const u64 *products, const u8 *coins, u64 *to);

/* The wire's row from the masked products. */
void cut_off_row(const struct shape *s, const struct masking *m, const u64 *masked, u64 *to);

/* A dealing's pieces. */
void deal_row(const struct shape *s, const struct tables *x, u64 value, const u8 *coins, u64 *to);

/* A multiply's row. The grid of pieces, one row a dealer, is left in `grid`. */
void multiply_on_grid(const struct shape *s, const struct tables *x, const u64 *a, const u64 *b, const u8 *coins, row *grid, u64 *to);

/* The same with the polynomials weighed first, and dealt once: no piece is worked. */
void multiply_at_once(const struct shape *s, const struct tables *x, const u64 *products, const u8 *coins, u64 *to);

/* An add, scale or offset on a row. */
void work_row(const struct shape *s, const u8 *gate, row *table, u64 *to);

/* A run: writes the set's view. The lists have been checked. */
void write_view(const struct shape *s, const struct tables *x, u16 set, const u8 *figures, const u8 *coins, u8 *view);

/* The bytes of the set's view. */
size_t view_size(const struct shape *s, u16 set);

#endif
