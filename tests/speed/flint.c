/* The table of shares by FLINT's matrices modulo p: inputs and multiplies alone, points 1 to n, no checks and no view. */
#include <flint/flint.h>
#include <flint/nmod_mat.h>
#include <stdint.h>
#include <stdlib.h>

static void weigh(nmod_mat_t w, unsigned dealers, nmod_t mod)
{
    for (unsigned i = 1; i <= dealers; i++) {
        mp_limb_t above = 1, below = 1;
        for (unsigned j = 1; j <= dealers; j++)
            if (j != i) {
                above = nmod_mul(above, nmod_neg(j, mod), mod);
                below = nmod_mul(below, nmod_sub(i, j, mod), mod);
            }
        nmod_mat_entry(w, 0, i - 1) = nmod_mul(above, nmod_inv(below, mod), mod);
    }
}

/* A gate has its kind, 1 or 5, and its two wires. The last wire's shares are left in `last`. */
void limit_flint(unsigned n, unsigned t, uint64_t p, const uint32_t (*gates)[3], size_t count, const uint64_t *figures, const uint64_t *coins,
    uint64_t *last)
{
    unsigned dealers = 2 * t + 1;
    nmod_t mod;
    nmod_mat_t terms, powers, grid, w, sum;
    nmod_init(&mod, p);
    nmod_mat_init(terms, dealers, t + 1, p);
    nmod_mat_init(powers, t + 1, n, p);
    nmod_mat_init(grid, dealers, n, p);
    nmod_mat_init(w, 1, dealers, p);
    nmod_mat_init(sum, 1, n, p);
    weigh(w, dealers, mod);
    for (unsigned j = 0; j < n; j++)
        for (unsigned k = 0; k <= t; k++)
            nmod_mat_entry(powers, k, j) = nmod_pow_ui(j + 1, k, mod);
    mp_limb_t *table = malloc(sizeof *table * count * n);
    for (size_t g = 0; g < count; g++) {
        mp_limb_t *row = table + n * g, *a = table + n * gates[g][1], *b = table + n * gates[g][2];
        if (gates[g][0] == 1) {
            for (unsigned j = 0; j < n; j++) {
                mp_limb_t v = 0;
                for (unsigned k = t; k > 0; k--)
                    v = nmod_mul(nmod_add(v, coins[k - 1], mod), j + 1, mod);
                row[j] = nmod_add(v, *figures, mod);
            }
            figures++;
            coins += t;
            continue;
        }
        for (unsigned d = 0; d < dealers; d++) {
            nmod_mat_entry(terms, d, 0) = nmod_mul(a[d], b[d], mod);
            for (unsigned k = 0; k < t; k++)
                nmod_mat_entry(terms, d, k + 1) = coins[d * t + k];
        }
        nmod_mat_mul(grid, terms, powers);
        nmod_mat_mul(sum, w, grid);
        for (unsigned j = 0; j < n; j++)
            row[j] = nmod_mat_entry(sum, 0, j);
        coins += t * dealers;
    }
    for (unsigned j = 0; j < n; j++)
        last[j] = table[n * (count - 1) + j];
    free(table);
    nmod_mat_clear(terms);
    nmod_mat_clear(powers);
    nmod_mat_clear(grid);
    nmod_mat_clear(w);
    nmod_mat_clear(sum);
}
