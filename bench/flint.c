/* FLINT on what a round's finish solves: nmod_mat_solve on the Cauchy matrix of the first users and columns 1 to size, modulo 65521,
 * with a right side for each block; and of further replies, nmod_mat_mul and nmod_mat_equal to see whether the unknowns explain them.
 * The matrices are filled once; only solving is left to be measured. */
#include <flint/nmod_mat.h>
#include <stdint.h>
#include <stdlib.h>

enum { Q = 65521 };

/* The right sides of some blocks as columns, and what becomes of them. */
typedef struct {
    nmod_mat_t values, unknowns, further, product;
} system_columns;

typedef struct {
    long blocks;
    nmod_mat_t matrix, rest; /* of the first users; of the further ones */
    system_columns all, *each;
} round_systems;

static void fill(nmod_mat_t m, long rows, long columns, long from)
{
    nmod_mat_init(m, rows, columns, Q);
    for (long i = 0; i < rows; i++)
        for (long j = 0; j < columns; j++)
            nmod_mat_entry(m, i, j) = n_invmod(from + i + j + 2, Q);
}

static void take(system_columns *c, long size, long users, long blocks, long from, long count, const uint16_t *replies)
{
    nmod_mat_init(c->values, size, count, Q);
    nmod_mat_init(c->unknowns, size, count, Q);
    nmod_mat_init(c->further, users - size, count, Q);
    nmod_mat_init(c->product, users - size, count, Q);
    for (long i = 0; i < users; i++)
        for (long b = 0; b < count; b++) {
            mp_limb_t x = replies[i * blocks + from + b];
            if (i < size)
                nmod_mat_entry(c->values, i, b) = x;
            else
                nmod_mat_entry(c->further, i - size, b) = x;
        }
}

/* The replies of user 1 to users, block by block. */
round_systems *flint_new(uint32_t size, uint32_t users, uint32_t blocks, const uint16_t *replies)
{
    round_systems *s = malloc(sizeof *s);
    s->blocks = blocks;
    s->each = malloc(blocks * sizeof *s->each);
    fill(s->matrix, size, size, 0);
    fill(s->rest, users - size, size, size);
    take(&s->all, size, users, blocks, 0, blocks, replies);
    for (long b = 0; b < s->blocks; b++)
        take(&s->each[b], size, users, blocks, b, 1, replies);
    return s;
}

static void solve(const round_systems *s, system_columns *c)
{
    if (!nmod_mat_solve(c->unknowns, s->matrix, c->values))
        abort();
    if (nmod_mat_nrows(s->rest)) {
        nmod_mat_mul(c->product, s->rest, c->unknowns);
        if (!nmod_mat_equal(c->product, c->further))
            abort();
    }
}

/* A system for each block. */
void flint_blocks(round_systems *s)
{
    for (long b = 0; b < s->blocks; b++)
        solve(s, &s->each[b]);
}

/* One system with a column for each block. */
void flint_columns(round_systems *s)
{
    solve(s, &s->all);
}

/* Unknown i of a block, by both ways; 65521 where they differ. */
uint32_t flint_unknown(const round_systems *s, uint32_t block, uint32_t i)
{
    const mp_limb_t x = nmod_mat_entry(s->each[block].unknowns, i, 0);
    return x == nmod_mat_entry(s->all.unknowns, i, block) ? x : Q;
}
