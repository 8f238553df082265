/* The same analysis and the same check in plain C: step for step the algorithm of crates/, with matrices changed in place where the
   crates hand them about by value. The benchmark compares the library with them; nothing else uses them. */
#ifndef PLAIN_H
#define PLAIN_H

#include <stddef.h>
#include <stdint.h>

enum { ORDER = 12, RECORDS = 10 };

typedef uint8_t Row[ORDER];
typedef Row Mat[ORDER];

/* An answer of document 01. */
typedef struct {
    uint8_t number;
    uint64_t place;
} Answer;

/* Fills the table of the reciprocals modulo 251; to be called once, before all else. */
void plain_prepare(void);

Answer plain_analysis(uint64_t p, uint64_t n, const uint8_t *matrix, size_t matrix_length, uint8_t *out, size_t out_length);
Answer plain_check(const uint8_t *certificate, size_t length);

/* Shared by both. */
extern const uint8_t plain_marks[2 * RECORDS];
Answer plain_limits(uint64_t n, uint64_t p);
uint8_t plain_reciprocal(uint8_t x, uint8_t p);

static inline size_t payload_size(size_t n, size_t record) {
    size_t square = n * n, cube = square * n;
    size_t sizes[RECORDS] = {2, square, square + n, cube, cube, cube, cube, square, square, square};
    return sizes[record];
}

static inline size_t record_start(size_t n, size_t record) {
    size_t start = 0;
    for (size_t k = 0; k < record; k++) start += 4 + payload_size(n, k);
    return start;
}

/* Row v times b. */
static inline void product_row(Row out, const Row v, const Mat b, size_t n, uint8_t p) {
    for (size_t j = 0; j < n; j++) {
        uint32_t sum = 0;
        for (size_t k = 0; k < n; k++) sum += (uint32_t)v[k] * b[k][j];
        out[j] = (uint8_t)(sum % p);
    }
}

/* x + k y modulo p */
static inline uint8_t plus_multiple(uint8_t x, uint8_t k, uint8_t y, uint8_t p) {
    return (uint8_t)(((uint32_t)x + (uint32_t)k * y) % p);
}

#endif
