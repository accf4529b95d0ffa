/* The operations that FLINT has: modulo 65537 (field 3), and in the fields of 2^8 and 2^16 elements (1 and 2), whose
   elements it holds as logarithms. */
#include <flint/fq_zech.h>
#include <flint/fq_zech_poly.h>
#include <flint/nmod_poly.h>
#include <flint/nmod_vec.h>
#include <stdint.h>
#include <stdlib.h>

#define MOST 4096

static fq_zech_ctx_t context[3];
static uint16_t logarithm[3][65536];

/* The tables, before the clock starts. */
void flint_open(void)
{
    const uint32_t moduli[3] = {0, 0x11D, 0x1100B};
    for (int field = 1; field < 3; field++) {
        nmod_poly_t modulus;
        nmod_poly_init(modulus, 2);
        for (int i = 0; i < 17; i++)
            nmod_poly_set_coeff_ui(modulus, i, moduli[field] >> i & 1);
        fq_zech_ctx_init_modulus(context[field], modulus, "x");
        nmod_poly_clear(modulus);
        mp_limb_t order = context[field]->qm1;
        for (mp_limb_t n = 0; n < order; n++)
            logarithm[field][context[field]->eval_table[n]] = n;
        logarithm[field][0] = order;
    }
}

static uint32_t code(int field, mp_limb_t power)
{
    return power == context[field]->qm1 ? 0 : context[field]->eval_table[power];
}

/* A polynomial at alpha^j, times alpha^by. */
static uint32_t at(int field, mp_ptr coefficients, size_t count, size_t j, size_t by)
{
    if (field == 3) {
        nmod_t modulus;
        nmod_init(&modulus, 65537);
        mp_limb_t value = _nmod_poly_evaluate_nmod(coefficients, count, nmod_pow_ui(3, j, modulus), modulus);
        return nmod_mul(value, nmod_pow_ui(3, by, modulus), modulus);
    }
    fq_zech_t x = {{j % context[field]->qm1}}, factor = {{by % context[field]->qm1}}, value;
    _fq_zech_poly_evaluate_fq_zech(value, (fq_zech_struct *)coefficients, count, x, context[field]);
    fq_zech_mul(value, value, factor, context[field]);
    return code(field, value->value);
}

uint32_t flint_sign(uint32_t field, const uint8_t *page, size_t length)
{
    mp_limb_t words[MOST];
    for (size_t i = 0; i < length; i++)
        words[length - 1 - i] = field == 3 ? page[i] : logarithm[field][page[i]];
    return at(field, words, length, 1, 0);
}

uint32_t flint_sum(uint32_t field, const uint32_t *row, size_t pages, size_t j)
{
    mp_limb_t words[MOST];
    for (size_t n = 0; n < pages; n++)
        words[n] = field == 3 ? row[n] : logarithm[field][row[n]];
    return at(field, words, pages, j, j);
}

/* Sums first, first + 1, .. of a row. */
void flint_sums(uint32_t field, const uint32_t *row, size_t pages, size_t first, size_t count, uint32_t *sums)
{
    mp_limb_t words[MOST];
    for (size_t n = 0; n < pages; n++)
        words[n] = field == 3 ? row[n] : logarithm[field][row[n]];
    if (field != 3) {
        for (size_t k = 0; k < count; k++)
            sums[k] = at(field, words, pages, first + k, first + k);
        return;
    }
    nmod_t modulus;
    nmod_init(&modulus, 65537);
    mp_limb_t points[MOST], values_at[MOST], x = nmod_pow_ui(3, first, modulus);
    for (size_t k = 0; k < count; k++, x = x * 3 % 65537)
        points[k] = x;
    _nmod_poly_evaluate_nmod_vec(values_at, words, pages, points, count, modulus);
    for (size_t k = 0; k < count; k++)
        sums[k] = nmod_mul(values_at[k], points[k], modulus);
}

static size_t prime_roots(const uint32_t *values, size_t count, size_t pages, size_t *found)
{
    nmod_berlekamp_massey_t run;
    nmod_berlekamp_massey_init(run, 65537);
    for (size_t j = 0; j < count; j++)
        nmod_berlekamp_massey_add_point(run, values[j]);
    nmod_berlekamp_massey_reduce(run);
    mp_limb_t points[MOST], values_at[MOST], x = 1;
    for (size_t n = 0; n < pages; n++)
        points[n] = x = x * 3 % 65537;
    nmod_poly_evaluate_nmod_vec(values_at, nmod_berlekamp_massey_V_poly(run), points, pages);
    nmod_berlekamp_massey_clear(run);
    size_t roots = 0;
    for (size_t n = 0; n < pages; n++)
        if (values_at[n] == 0)
            found[roots++] = n + 1;
    return roots;
}

/* Euclid's steps from x^count and the values down to a remainder of less than half the degree. */
static void euclid(fq_zech_poly_t locator, const uint32_t *values, size_t count, int field)
{
    const fq_zech_ctx_struct *in = context[field];
    fq_zech_poly_t above, here, before, quotient, product;
    fq_zech_poly_init(above, in);
    fq_zech_poly_init(here, in);
    fq_zech_poly_init(before, in);
    fq_zech_poly_init(quotient, in);
    fq_zech_poly_init(product, in);
    fq_zech_t one = {{0}};
    fq_zech_poly_set_coeff(above, count, one, in);
    for (size_t j = 0; j < count; j++) {
        fq_zech_t value = {{logarithm[field][values[j]]}};
        fq_zech_poly_set_coeff(here, j, value, in);
    }
    fq_zech_poly_one(locator, in);
    while (2 * fq_zech_poly_degree(here, in) >= (slong)count) {
        fq_zech_poly_divrem(quotient, above, above, here, in);
        fq_zech_poly_swap(above, here, in);
        fq_zech_poly_mul(product, quotient, locator, in);
        fq_zech_poly_add(before, before, product, in);
        fq_zech_poly_swap(before, locator, in);
    }
    fq_zech_poly_clear(above, in);
    fq_zech_poly_clear(here, in);
    fq_zech_poly_clear(before, in);
    fq_zech_poly_clear(quotient, in);
    fq_zech_poly_clear(product, in);
}

static size_t binary_roots(int field, const uint32_t *values, size_t count, size_t pages, size_t *found)
{
    const fq_zech_ctx_struct *in = context[field];
    fq_zech_poly_t locator;
    fq_zech_poly_init(locator, in);
    euclid(locator, values, count, field);
    fq_zech_struct points[MOST], values_at[MOST];
    for (size_t n = 0; n < pages; n++)
        points[n].value = (in->qm1 - (n + 1)) % in->qm1;
    _fq_zech_poly_evaluate_fq_zech_vec_iter(values_at, locator->coeffs, locator->length, points, pages, in);
    size_t roots = 0;
    for (size_t n = 0; n < pages; n++)
        if (values_at[n].value == in->qm1)
            found[roots++] = n + 1;
    fq_zech_poly_clear(locator, in);
    return roots;
}

/* The pages of a difference with these sums: the locator, and its roots among the pages' points. How many. */
size_t flint_roots(uint32_t field, const uint32_t *values, size_t count, size_t pages, size_t *found)
{
    return field == 3 ? prime_roots(values, count, pages, found) : binary_roots(field, values, count, pages, found);
}
