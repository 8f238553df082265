/* The check in plain C, as crates/certificate reads, crates/rules has the nine rules and crates/verdict asks them. */
#include "plain.h"
#include <string.h>

enum { COEFFICIENTS = ORDER + 1, TERMS = 2 * ORDER + 1 };

/* Reading: the mark and the length of a record, and that its payload is complete. */
static Answer read_frame(const uint8_t *s, size_t length, size_t start, size_t record, size_t size) {
    if (length < start + 4) return (Answer){6, start};
    if (s[start] != plain_marks[2 * record] || s[start + 1] != plain_marks[2 * record + 1]) return (Answer){7, start};
    if (s[start + 2] + 256u * s[start + 3] != size) return (Answer){8, start + 2};
    if (length < start + 4 + size) return (Answer){6, start};
    return (Answer){0, 0};
}

static Answer read_residues(const uint8_t *s, size_t start, size_t size, uint8_t p) {
    for (size_t i = 0; i < size; i++)
        if (p <= s[start + i]) return (Answer){9, start + i};
    return (Answer){0, 0};
}

/* The ten records, and nothing after them. */
static Answer read_certificate(const uint8_t *s, size_t length) {
    uint8_t p = length > 4 ? s[4] : 0, n = length > 5 ? s[5] : 0;
    size_t at = 0;
    for (size_t k = 0; k < RECORDS; k++) {
        size_t size = payload_size(n, k);
        Answer answer = read_frame(s, length, at, k, size);
        if (answer.number != 0) return answer;
        answer = k == 0 ? plain_limits(n, p) : read_residues(s, at + 4, size, p);
        if (answer.number != 0) return answer;
        at += 4 + size;
    }
    return at < length ? (Answer){10, at} : (Answer){0, at};
}

/* A certificate that is read: its prime, its order, and where its payloads start. */
typedef struct {
    size_t n;
    uint8_t p;
    const uint8_t *payload[RECORDS];
    size_t degrees[ORDER];
} Parts;

enum { MA = 1, DF, PL, PI, QR, QI, FB, TB, TI };

static void find_degrees(Parts *x) {
    for (size_t i = 0; i < x->n; i++) {
        const uint8_t *f = x->payload[DF] + i * (x->n + 1);
        size_t k = x->n;
        while (0 < k && f[k] == 0) k--;
        x->degrees[i] = k;
    }
}

static int monic_rule(const Parts *x) {
    for (size_t i = 0; i < x->n; i++)
        if (x->payload[DF][i * (x->n + 1) + x->degrees[i]] != 1) return 1;
    return 0;
}

/* Whether f divides g, both with their lengths: long division that leaves nothing. */
static int divides(const uint8_t *f, size_t f_length, const uint8_t *g, size_t g_length, uint8_t p) {
    uint8_t rest[COEFFICIENTS] = {0};
    uint8_t reciprocal = plain_reciprocal(f[f_length - 1], p);
    memcpy(rest, g, g_length);
    for (size_t top = g_length; f_length <= top; top--) {
        size_t k = top - f_length;
        uint8_t c = plus_multiple(0, rest[top - 1], reciprocal, p);
        for (size_t i = 0; i < f_length; i++) rest[k + i] = plus_multiple(rest[k + i], (uint8_t)(p - c), f[i], p);
    }
    for (size_t i = 0; i < COEFFICIENTS; i++)
        if (rest[i] != 0) return 0;
    return 1;
}

static int chain_rule(const Parts *x) {
    for (size_t i = 0; i + 1 < x->n; i++) {
        const uint8_t *f = x->payload[DF] + i * (x->n + 1);
        if (!divides(f, x->degrees[i] + 1, f + x->n + 1, x->degrees[i + 1] + 1, x->p)) return 2;
    }
    return 0;
}

static int degrees_rule(const Parts *x) {
    size_t sum = 0;
    for (size_t i = 0; i < x->n; i++) sum += x->degrees[i];
    return sum == x->n ? 0 : 3;
}

/* sums += y X^shift g */
static void add_scaled(uint32_t *sums, uint32_t y, size_t shift, const uint8_t *g, size_t n) {
    for (size_t k = 0; k < n; k++) sums[shift + k] += y * g[k];
}

/* sums += f g */
static void add_product(uint32_t *sums, const uint8_t *f, size_t m, const uint8_t *g, size_t n) {
    for (size_t k = 0; k < m; k++)
        if (f[k] != 0) add_scaled(sums, f[k], k, g, n);
}

static int is_equal(const uint32_t *f, const uint32_t *g, size_t n, uint32_t p) {
    for (size_t k = 0; k <= 2 * n; k++)
        if (f[k] != g[k] && f[k] % p != g[k] % p) return 0;
    return 1;
}

/* The entries of row i of a product of two records, one polynomial after the other. */
typedef uint32_t Line[ORDER][TERMS];

/* line += x X^shift times row l of `right`. */
static void add_line(Line line, uint32_t x, size_t shift, const uint8_t *right, size_t l, size_t n) {
    for (size_t j = 0; j < n; j++) add_scaled(line[j], x, shift, right + (l * n + j) * n, n);
}

static void product_line(Line line, const uint8_t *left, const uint8_t *right, size_t i, size_t n) {
    memset(line, 0, sizeof(Line));
    for (size_t l = 0; l < n; l++)
        for (size_t k = 0; k < n; k++) {
            uint8_t x = left[(i * n + l) * n + k];
            if (x != 0) add_line(line, x, k, right, l, n);
        }
}

static int is_unit_entry(const uint32_t *entry, size_t i, size_t j, size_t n, uint32_t p) {
    for (size_t k = 0; k <= 2 * n; k++) {
        uint32_t unit = k == 0 && i == j;
        if (entry[k] != unit && entry[k] % p != unit % p) return 0;
    }
    return 1;
}

/* Rule 4 or 5: the product of two records is E. */
static int inverse_rule(const Parts *x, int left, int right, int rule) {
    for (size_t i = 0; i < x->n; i++) {
        Line line;
        product_line(line, x->payload[left], x->payload[right], i, x->n);
        for (size_t j = 0; j < x->n; j++)
            if (!is_unit_entry(line[j], i, j, x->n, x->p)) return rule;
    }
    return 0;
}

/* Row i of P(XE-A): every coefficient of row i of P times X in its own place, and times each entry of a row of -A. */
static void moved_line(Line line, const Parts *x, size_t i) {
    size_t n = x->n;
    memset(line, 0, sizeof(Line));
    for (size_t l = 0; l < n; l++)
        for (size_t k = 0; k < n; k++) {
            uint32_t y = x->payload[PL][(i * n + l) * n + k];
            if (y == 0) continue;
            line[l][k + 1] += y;
            for (size_t j = 0; j < n; j++) line[j][k] += y * (uint32_t)(x->p - x->payload[MA][l * n + j]);
        }
}

/* The entry (i, j) of P(XE-A) is that of D QI. */
static int is_returned(const uint32_t *moved, const Parts *x, size_t i, size_t j) {
    size_t n = x->n;
    uint32_t returned[TERMS] = {0};
    add_product(returned, x->payload[DF] + i * (n + 1), n + 1, x->payload[QI] + (i * n + j) * n, n);
    return is_equal(moved, returned, n, x->p);
}

static int smith_rule(const Parts *x) {
    for (size_t i = 0; i < x->n; i++) {
        Line line;
        moved_line(line, x, i);
        for (size_t j = 0; j < x->n; j++)
            if (!is_returned(line[j], x, i, j)) return 6;
    }
    return 0;
}

static uint8_t companion_entry(const Parts *x, size_t b, size_t m, size_t i, size_t j) {
    if (j + 1 == m) return (uint8_t)((x->p - x->payload[DF][b * (x->n + 1) + i]) % x->p);
    return i == j + 1;
}

static uint8_t frobenius_entry(const Parts *x, size_t i, size_t j) {
    for (size_t b = 0; b < x->n; b++) {
        size_t m = x->degrees[b];
        if (i < m && j < m) return companion_entry(x, b, m, i, j);
        if (i < m || j < m) return 0;
        i -= m;
        j -= m;
    }
    return 0;
}

static int frobenius_rule(const Parts *x) {
    for (size_t i = 0; i < x->n; i++)
        for (size_t j = 0; j < x->n; j++)
            if (x->payload[FB][i * x->n + j] != frobenius_entry(x, i, j)) return 7;
    return 0;
}

static void load(Mat m, const uint8_t *s, size_t n) {
    memset(m, 0, sizeof(Mat));
    for (size_t i = 0; i < n; i++) memcpy(m[i], s + i * n, n);
}

static void product(Mat out, const Mat a, const Mat b, size_t n, uint8_t p) {
    memset(out, 0, sizeof(Mat));
    for (size_t i = 0; i < n; i++) product_row(out[i], a[i], b, n, p);
}

static int base_rule(const Parts *x) {
    Mat t, inverse, unit, e = {{0}};
    load(t, x->payload[TB], x->n);
    load(inverse, x->payload[TI], x->n);
    product(unit, t, inverse, x->n, x->p);
    for (size_t i = 0; i < x->n; i++) e[i][i] = 1;
    return memcmp(unit, e, sizeof e) == 0 ? 0 : 8;
}

static int similar_rule(const Parts *x) {
    Mat a, t, form, left, right;
    load(a, x->payload[MA], x->n);
    load(t, x->payload[TB], x->n);
    load(form, x->payload[FB], x->n);
    product(left, a, t, x->n, x->p);
    product(right, t, form, x->n, x->p);
    return memcmp(left, right, sizeof left) == 0 ? 0 : 9;
}

/* The first rule that fails, or 0. */
static int failing_rule(Parts *x) {
    int rule;
    find_degrees(x);
    if ((rule = monic_rule(x)) != 0) return rule;
    if ((rule = chain_rule(x)) != 0) return rule;
    if ((rule = degrees_rule(x)) != 0) return rule;
    if ((rule = inverse_rule(x, PL, PI, 4)) != 0) return rule;
    if ((rule = inverse_rule(x, QR, QI, 5)) != 0) return rule;
    if ((rule = smith_rule(x)) != 0) return rule;
    if ((rule = frobenius_rule(x)) != 0) return rule;
    if ((rule = base_rule(x)) != 0) return rule;
    return similar_rule(x);
}

Answer plain_check(const uint8_t *certificate, size_t length) {
    Answer answer = read_certificate(certificate, length);
    if (answer.number != 0) return answer;
    Parts x = {.n = certificate[5], .p = certificate[4]};
    for (size_t k = 0; k < RECORDS; k++) x.payload[k] = certificate + record_start(x.n, k) + 4;
    int rule = failing_rule(&x);
    return rule != 0 ? (Answer){11, (uint64_t)rule} : (Answer){0, length};
}
