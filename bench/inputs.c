/* The matrices: the same ones on every run and machine. */
#include "bench.h"
#include <stdio.h>
#include <stdlib.h>
#include <string.h>

const char *const kind_names[KINDS] = {"random, p 251",       "random, p 2",   "sparse, p 251", "zero",     "identity",
                                       "six equal 2x2 blocks", "their conjugates", "diag(0..11)",   "nilpotent"};
enum { RANDOM_251, RANDOM_2, SPARSE, ZERO, IDENTITY, BLOCKS, CONJUGATES, DIAGONAL, NILPOTENT };

static uint64_t state;

unsigned random_below(unsigned bound) {
    state = state * 6364136223846793005u + 1442695040888963407u;
    return (unsigned)((state >> 33) % bound);
}

/* A conjugate: again and again row i += c row j, and column j -= c column i. */
static void conjugate(Case *c) {
    unsigned n = c->n, p = c->p;
    for (int step = 0; step < 300; step++) {
        unsigned i = random_below(n), j = random_below(n), x = random_below(p);
        if (i == j) continue;
        for (unsigned k = 0; k < n; k++) c->matrix[i * n + k] = (uint8_t)((c->matrix[i * n + k] + x * c->matrix[j * n + k]) % p);
        for (unsigned k = 0; k < n; k++) c->matrix[k * n + j] = (uint8_t)((c->matrix[k * n + j] + (p - x) * c->matrix[k * n + i]) % p);
    }
}

static uint8_t entry(int kind, unsigned i, unsigned j, unsigned p, const uint8_t block[4]) {
    switch (kind) {
    case RANDOM_251:
    case RANDOM_2: return (uint8_t)random_below(p);
    case SPARSE: return random_below(4) == 0 ? (uint8_t)random_below(p) : 0;
    case IDENTITY: return i == j;
    case BLOCKS:
    case CONJUGATES: return i / 2 == j / 2 ? block[i % 2 * 2 + j % 2] : 0;
    case DIAGONAL: return i == j ? (uint8_t)i : 0;
    case NILPOTENT: return j < i ? (uint8_t)random_below(p) : 0;
    default: return 0;
    }
}

static void fill_case(Case *c, int kind, unsigned n) {
    uint8_t block[4];
    uint64_t place;
    c->p = kind == RANDOM_2 ? 2 : 251;
    c->n = n;
    c->length = NYARGULET_LENGTH(n);
    for (int k = 0; k < 4; k++) block[k] = (uint8_t)random_below(c->p);
    for (unsigned i = 0; i < n; i++)
        for (unsigned j = 0; j < n; j++) c->matrix[i * n + j] = entry(kind, i, j, c->p, block);
    if (kind == CONJUGATES) conjugate(c);
    if (nyargulet_analysis(c->p, n, c->matrix, n * n, c->certificate, c->length, &place) != 0) {
        fprintf(stderr, "the library refuses a matrix of kind %s\n", kind_names[kind]);
        exit(1);
    }
}

void fill_cases(Case *cases, int set, int kind, unsigned n) {
    state = 20261115u + 100u * (unsigned)kind + n;
    for (int k = 0; k < CASES; k++) {
        fill_case(&cases[k], kind, n);
        cases[k].number = set * CASES + k;
    }
}

const uint8_t *part(const Case *c, const char *mark) {
    uint64_t start;
    if (nyargulet_find(c->certificate, c->length, (const uint8_t *)mark, 2, &start) == 0) {
        fprintf(stderr, "no part %s\n", mark);
        exit(1);
    }
    return c->certificate + start;
}

/* Somewhere in the payload of one of the records, each as likely as any other; or anywhere. */
static size_t place_to_damage(const Case *c) {
    static const char *const marks[] = {"HD", "MA", "DF", "PL", "PI", "QR", "QI", "FB", "TB", "TI"};
    size_t n = c->n, square = n * n, cube = square * n;
    size_t sizes[] = {2, square, square + n, cube, cube, cube, cube, square, square, square};
    unsigned record = random_below(11);
    if (record == 10) return random_below((unsigned)c->length);
    return (size_t)(part(c, marks[record]) - c->certificate) + random_below((unsigned)sizes[record]);
}

/* TB and TI become E: of all rules only the ninth can then fail. */
static void put_unit_basis(Case *c) {
    for (unsigned at = 0; at < c->n * c->n; at++) {
        uint8_t unit = at / c->n == at % c->n;
        c->certificate[part(c, "TB") - c->certificate + at] = unit;
        c->certificate[part(c, "TI") - c->certificate + at] = unit;
    }
}

void damage(Case *damaged, const Case *c) {
    size_t at = place_to_damage(c);
    memcpy(damaged, c, sizeof *c);
    if (random_below(20) == 0) {
        put_unit_basis(damaged);
        return;
    }
    damaged->certificate[at] = (uint8_t)((c->certificate[at] + 1 + random_below(c->p - 1)) % c->p);
}
