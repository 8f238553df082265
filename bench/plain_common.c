/* What the plain analysis and the plain check share: the marks, the limits and the reciprocals. */
#include "plain.h"

static uint8_t reciprocals_251[251];

const uint8_t plain_marks[2 * RECORDS] = {'H', 'D', 'M', 'A', 'D', 'F', 'P', 'L', 'P', 'I', 'Q', 'R', 'Q', 'I', 'F', 'B', 'T', 'B', 'T', 'I'};

static int is_prime(uint64_t p) {
    return (2 <= p) & (p <= 251) & ((p == 2) | (p % 2 != 0)) & ((p == 3) | (p % 3 != 0)) & ((p == 5) | (p % 5 != 0)) &
           ((p == 7) | (p % 7 != 0)) & ((p == 11) | (p % 11 != 0)) & ((p == 13) | (p % 13 != 0));
}

Answer plain_limits(uint64_t n, uint64_t p) {
    if (n < 1 || n > ORDER) return (Answer){1, n};
    if (!is_prime(p)) return (Answer){2, p};
    return (Answer){0, 0};
}

/* Euclid's algorithm on p and x, for x from 1 to p - 1. */
static uint8_t euclid(uint8_t x, uint8_t p) {
    uint32_t a = p, b = x, s = 0, t = 1;
    while (b > 1) {
        uint32_t quotient = a / b, rest = a % b, next = (s + (p - t) * quotient) % p;
        a = b;
        b = rest;
        s = t;
        t = next;
    }
    return (uint8_t)t;
}

void plain_prepare(void) {
    for (unsigned x = 1; x < 251; x++) reciprocals_251[x] = euclid((uint8_t)x, 251);
}

uint8_t plain_reciprocal(uint8_t x, uint8_t p) {
    if (p == 251) return reciprocals_251[x];
    return x == 0 ? 0 : euclid(x, p);
}
