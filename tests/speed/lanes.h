/* Vectors of two lanes of 64 bits. Sums of products stay below 2^36 for a p of 16 bits. For a larger p one factor is taken by its 16-bit halves,
 * against the other and 2^16 times the other, so that sums stay below 2^52 and have one remainder. */
#ifndef LANES_H
#define LANES_H

#include "limit.h"

typedef __m128i V;

#define EACH(v) _Pragma("GCC unroll 8") for (unsigned v = 0; v < vectors; v++)

INLINE V load(const u64 *at)
{
    return _mm_loadu_si128((const __m128i *)at);
}

INLINE void store(u64 *at, V x)
{
    _mm_storeu_si128((__m128i *)at, x);
}

INLINE V all(u64 x)
{
    return _mm_set1_epi64x((long long)x);
}

INLINE V times(V a, V b)
{
    return _mm_mul_epu32(a, b);
}

INLINE V plus(V a, V b)
{
    return _mm_add_epi64(a, b);
}

/* r or r - p, whichever is below p; r is below 2p. */
INLINE V below(V r, V p)
{
    V t = _mm_sub_epi32(r, p);
    return _mm_add_epi32(t, _mm_and_si128(_mm_srai_epi32(t, 31), p));
}

/* Remainders without a division. */
struct reducing {
    V p, m, shift;
};

INLINE struct reducing reducing_by(const struct field *f)
{
    return (struct reducing){all(f->p), all(f->m), _mm_cvtsi32_si128(f->shift)};
}

/* Of sums of at most 16 products for a p of 16 bits; of sums below 2^21 p for a larger one. */
INLINE V reduced(const struct reducing *b, V x, int wide)
{
    if (!wide) {
        V q = _mm_srli_epi64(times(_mm_srl_epi64(x, b->shift), b->m), 29);
        return below(_mm_sub_epi64(x, times(q, b->p)), b->p);
    }
    V q = _mm_srli_epi64(times(_mm_srli_epi64(x, 20), b->m), 28), r = _mm_sub_epi64(x, times(q, b->p));
    V k = _mm_srli_epi64(times(_mm_srli_epi64(r, 4), b->m), 44);
    return below(_mm_sub_epi64(r, times(k, b->p)), b->p);
}

/* A sum with one more product: x is a vector or the same in all lanes, and y has high = 2^16 y beside it. */
INLINE V with_product(V sum, V x, V y, V high, int wide)
{
    if (!wide)
        return plus(sum, times(x, y));
    V low = _mm_and_si128(x, all(65535));
    return plus(sum, plus(times(low, y), times(_mm_srli_epi64(x, 16), high)));
}

/* The same with x a number. */
INLINE V with_number(V sum, u64 x, V y, V high, int wide)
{
    V s = plus(sum, times(all(wide ? x & 65535 : x), y));
    return wide ? plus(s, times(all(x >> 16), high)) : s;
}

/* Two numbers of a list, and their bytes. */
INLINE V load_numbers(const u8 *at)
{
    return _mm_unpacklo_epi32(_mm_loadl_epi64((const __m128i *)at), _mm_setzero_si128());
}

/* Coefficients 2k and 2k + 1 of a dealing's polynomial; nothing is read past its coins. */
INLINE V terms_of(u64 value, const u8 *coins, unsigned t, unsigned k)
{
    if (k == 0)
        return t == 0 ? _mm_set_epi64x(0, (long long)value) : _mm_set_epi64x(get4(coins), (long long)value);
    return 2 * k < t ? load_numbers(coins + 4 * (2 * k - 1)) : _mm_cvtsi32_si128((int)get4(coins + 4 * (2 * k - 1)));
}

INLINE void store_numbers(u8 *at, V x)
{
    _mm_storel_epi64((__m128i *)at, _mm_shuffle_epi32(x, 8));
}

#endif
