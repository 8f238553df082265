/* The analysis in plain C, as crates/basis, ordering, splitting, elimination, payloads and analysis do it. */
#include "plain.h"
#include <string.h>

/* B, T and the inverse of T, with A T = T B. */
typedef struct {
    Mat form, basis, inverse;
} State;

/* The sizes that every step needs, and 2^32 / p rounded up. */
typedef struct {
    size_t n;
    uint8_t p;
    uint64_t factor;
} Field;

/* x % p for x below 2^24. */
static uint8_t remainder_of(uint32_t x, const Field *f) {
    uint64_t quotient = (x * f->factor) >> 32;
    return (uint8_t)(x - quotient * f->p);
}

static uint8_t inner(const Row x, const Row y, const Field *f) {
    uint32_t sum = 0;
    for (size_t k = 0; k < ORDER; k++) sum += (uint32_t)x[k] * y[k];
    return remainder_of(sum, f);
}

/* x += k y */
static void add_multiple(Row x, uint8_t k, const Row y, const Field *f) {
    for (size_t j = 0; j < ORDER; j++) x[j] = remainder_of(x[j] + (uint32_t)k * y[j], f);
}

/* Column `at` of B and of T becomes B w and T w. */
static void set_columns(State *s, size_t at, const Row w, const Field *f) {
    for (size_t i = 0; i < f->n; i++) {
        s->form[i][at] = inner(s->form[i], w, f);
        s->basis[i][at] = inner(s->basis[i], w, f);
    }
}

/* Row `at` of B and of the inverse of T is added to each row, as often as c says. */
static void add_rows(State *s, const Row c, size_t at, const Field *f) {
    Row x, y;
    memcpy(x, s->form[at], ORDER);
    memcpy(y, s->inverse[at], ORDER);
    for (size_t i = 0; i < f->n; i++)
        if (c[i] != 0) {
            add_multiple(s->form[i], c[i], x, f);
            add_multiple(s->inverse[i], c[i], y, f);
        }
}

/* The basis vector e_at is replaced by w. */
static void replace(State *s, size_t at, const Row w, const Field *f) {
    uint8_t d = plain_reciprocal(w[at], f->p);
    Row c = {0}, e = {0};
    e[at] = 1;
    add_multiple(c, (uint8_t)(f->p - d), w, f);
    add_multiple(c, d, e, f);
    set_columns(s, at, w, f);
    add_rows(s, c, at, f);
}

static void column(Row out, const Mat b, size_t j, size_t n) {
    memset(out, 0, ORDER);
    for (size_t i = 0; i < n; i++) out[i] = b[i][j];
}

static size_t first_nonzero(const Row x, size_t from, size_t k) {
    for (size_t i = from; i < k; i++)
        if (x[i] != 0) return i;
    return k;
}

static size_t first_pivot(const Mat b, size_t j, size_t k) {
    for (size_t i = j + 1; i < k; i++)
        if (b[i][j] != 0) return i;
    return k;
}

static size_t turned(size_t i, size_t m, size_t k) {
    if (i < k - m) return i + m;
    if (i < k) return i - (k - m);
    return i;
}

static void turn_row(Row out, const Row x, const size_t *order) {
    for (size_t j = 0; j < ORDER; j++) out[j] = x[order[j]];
}

/* The first m basis vectors of [0,k) go behind the others. */
static void rotate(State *s, size_t m, size_t k, size_t n) {
    if (m == k) return;
    size_t order[ORDER];
    State r = *s;
    for (size_t j = 0; j < ORDER; j++) order[j] = turned(j, m, k);
    for (size_t i = 0; i < n; i++) {
        turn_row(s->form[i], r.form[order[i]], order);
        turn_row(s->basis[i], r.basis[i], order);
        memcpy(s->inverse[i], r.inverse[order[i]], ORDER);
    }
}

static void exchange_columns(Mat x, size_t a, size_t b, size_t n) {
    for (size_t i = 0; i < n; i++) {
        uint8_t entry = x[i][a];
        x[i][a] = x[i][b];
        x[i][b] = entry;
    }
}

static void exchange_rows(Mat x, size_t a, size_t b) {
    Row row;
    memcpy(row, x[a], ORDER);
    memcpy(x[a], x[b], ORDER);
    memcpy(x[b], row, ORDER);
}

/* The first pivot of column j, at row q, comes to row j + 1: two basis vectors are exchanged. */
static void pull(State *s, size_t j, size_t q, const Field *f) {
    if (q == j + 1) return;
    exchange_columns(s->form, j + 1, q, f->n);
    exchange_rows(s->form, j + 1, q);
    exchange_columns(s->basis, j + 1, q, f->n);
    exchange_rows(s->inverse, j + 1, q);
}

/* Column j takes the place of e_(j+1), from column 0 on, as far as there are pivots. */
static void chain(State *s, size_t k, const Field *f) {
    for (size_t j = 0;; j++) {
        size_t q = first_pivot(s->form, j, k);
        if (k <= q) return;
        pull(s, j, q, f);
        Row w;
        column(w, s->form, j, f->n);
        replace(s, j + 1, w, f);
    }
}

/* How long the block at the head of the window is. */
static size_t reach(const Mat b, size_t k) {
    for (size_t j = 0; j + 1 < k; j++)
        if (k <= first_pivot(b, j, k)) return j + 1;
    return k;
}

/* z = the sum of the rows of m, each as often as v says. */
static void combination(Row z, const Row v, const Mat m, const Field *f) {
    memset(z, 0, ORDER);
    for (size_t i = 0; i < f->n; i++)
        if (v[i] != 0) add_multiple(z, v[i], m[i], f);
}

/* Column a of B and of T times v is added to all columns. */
static void add_columns(State *s, size_t a, const Row v, const Field *f) {
    for (size_t i = 0; i < f->n; i++) {
        if (s->form[i][a] != 0) add_multiple(s->form[i], s->form[i][a], v, f);
        if (s->basis[i][a] != 0) add_multiple(s->basis[i], s->basis[i][a], v, f);
    }
}

/* Row a + 1 is wiped from column m on, by multiples of e_a. */
static void wipe(State *s, size_t a, size_t m, size_t k, const Field *f) {
    Row v = {0}, z;
    for (size_t j = m; j < k; j++) v[j] = (uint8_t)((f->p - s->form[a + 1][j]) % f->p);
    add_columns(s, a, v, f);
    combination(z, v, s->form, f);
    add_multiple(s->form[a], (uint8_t)(f->p - 1), z, f);
    combination(z, v, s->inverse, f);
    add_multiple(s->inverse[a], (uint8_t)(f->p - 1), z, f);
}

/* Rows 1 .. m - 1 are wiped. */
static void clear(State *s, size_t m, size_t k, const Field *f) {
    for (size_t r = m - 1; 0 < r; r--)
        if (first_nonzero(s->form[r], m, k) < k) wipe(s, r - 1, m, k, f);
}

/* Nothing is left behind the block, or a longer one is made. */
static void settle(State *s, size_t m, size_t k, const Field *f) {
    clear(s, m, k, f);
    size_t j = first_nonzero(s->form[0], m, k);
    if (k <= j) return;
    rotate(s, j, j + 1, f->n);
    chain(s, k, f);
}

static void apply(Row out, const Mat b, const Row g, const Field *f) {
    for (size_t i = 0; i < f->n; i++) out[i] = inner(b[i], g, f);
}

/* Whether the polynomial of the block of m kills e_j, tried by powers of b. */
static int killed(const Mat b, size_t j, size_t m, const Field *f) {
    Row g, v = {0}, x = {0};
    column(g, b, j, f->n);
    v[j] = b[0][m - 1];
    for (size_t e = 1; e < m; e++) {
        add_multiple(v, b[e][m - 1], g, f);
        apply(x, b, g, f);
        memcpy(g, x, ORDER);
    }
    return memcmp(g, v, f->n) == 0;
}

static size_t first_unkilled(const Mat b, size_t from, size_t m, size_t k, const Field *f) {
    for (size_t j = from; j < k; j++)
        if (!killed(b, j, m, f)) return j;
    return k;
}

/* Passes from e_0 + e_j, for each j that is not killed: a longer block is made, or the block's polynomial kills the window. */
static void probe(State *s, size_t j, size_t m, size_t k, const Field *f) {
    for (; j < k; j = first_unkilled(s->form, j + 1, m, k, f)) {
        Row w = {0};
        w[0] = w[j] = 1;
        replace(s, 0, w, f);
        chain(s, k, f);
        if (m < reach(s->form, k)) return;
    }
}

static int is_settled(const Mat b, size_t m, size_t k) {
    for (size_t i = 0; i < m; i++)
        if (first_nonzero(b[i], m, k) < k) return 0;
    return 1;
}

/* The window becomes a block whose polynomial kills all of it, and the rest. */
static void split(State *s, size_t k, const Field *f) {
    chain(s, k, f);
    size_t m = reach(s->form, k);
    for (;;) {
        size_t h = m;
        if (!is_settled(s->form, m, k)) {
            settle(s, m, k, f);
            h = reach(s->form, k);
        }
        if (h <= m) {
            size_t j = first_unkilled(s->form, m, m, k, f);
            if (k <= j) return;
            probe(s, j, m, k, f);
            h = reach(s->form, k);
            if (h <= m) return;
        }
        m = h;
    }
}

/* The window is a multiple of E: as many blocks of one row as it has rows. */
static int is_scalar(const Mat b, size_t k) {
    for (size_t i = 0; i < k; i++)
        for (size_t j = 0; j < k; j++)
            if (b[i][j] != (i == j ? b[0][0] : 0)) return 0;
    return 1;
}

/* F, T and the inverse of T, from the matrix's bytes. */
static void reduce(State *s, const uint8_t *matrix, const Field *f) {
    memset(s, 0, sizeof *s);
    for (size_t i = 0; i < f->n; i++) {
        memcpy(s->form[i], matrix + i * f->n, f->n);
        s->basis[i][i] = s->inverse[i][i] = 1;
    }
    for (size_t k = f->n; 0 < k && !is_scalar(s->form, k);) {
        split(s, k, f);
        size_t m = reach(s->form, k);
        rotate(s, m, k, f->n);
        k -= m;
    }
}

/* What the closed forms are read off: F, T and its inverse, the row of F for each row of D, the last row of each row's block. */
typedef struct {
    State s;
    Row from, last;
    Field f;
} Forms;

static int is_head(const Mat form, size_t i) { return i == 0 || form[i][i - 1] == 0; }

static void find_last_rows(Forms *x) {
    uint8_t next = 0;
    for (size_t i = x->f.n; 0 < i--;) {
        if (x->f.n <= i + 1 || is_head(x->s.form, i + 1)) next = (uint8_t)i;
        x->last[i] = next;
    }
}

/* First the rows that begin no block, then the others. */
static void find_order(Forms *x) {
    size_t ones = 0, passed = 0;
    for (size_t i = 0; i < x->f.n; i++) ones += !is_head(x->s.form, i);
    for (size_t i = 0; i < x->f.n; i++) {
        int head = is_head(x->s.form, i);
        x->from[head ? ones + (i - passed) : passed] = (uint8_t)i;
        passed += !head;
    }
}

static uint8_t opposite(uint8_t x, uint8_t p) { return x == 0 ? 0 : (uint8_t)(p - x); }

/* The polynomial of the block that ends at row `end`, with its constant term at j = the block's first row. */
static uint8_t block_coefficient(const Forms *x, size_t end, size_t j) {
    if (j <= end) return opposite(x->s.form[j][end], x->f.p);
    return j == end + 1;
}

static uint8_t d_coefficient(const Forms *x, size_t i, size_t end, size_t k) {
    if (is_head(x->s.form, i)) return block_coefficient(x, end, i + k);
    return k == 0;
}

/* The coefficients of P in row i and column c. Here and below only those that can be other than zero are put. */
static void put_p(uint8_t *out, const Forms *x, size_t end, size_t i, size_t c) {
    for (size_t k = 0; i + k <= end; k++) out[k] = x->s.inverse[i + k][c];
}

static void put_pi(uint8_t *out, const Forms *x, size_t r, size_t i) {
    out[0] = x->s.basis[r][i];
    if (!is_head(x->s.form, i)) out[1] = opposite(x->s.basis[r][i - 1], x->f.p);
}

/* Row r of T times the polynomial of the block of row i, from coefficient k + 1 on, with the leading 1 first. */
static uint8_t head_sum(const Forms *x, size_t end, size_t r, size_t i, size_t k) {
    uint32_t sum = x->s.basis[r][end - k];
    for (size_t s = 0; i + s + k < end; s++) sum += (uint32_t)x->s.basis[r][i + s] * opposite(x->s.form[i + s + 1 + k][end], x->f.p);
    return remainder_of(sum, &x->f);
}

static void put_q(uint8_t *out, const Forms *x, size_t end, size_t r, size_t i) {
    if (is_head(x->s.form, i))
        for (size_t k = 0; i + k <= end; k++) out[k] = head_sum(x, end, r, i, k);
    else
        out[0] = opposite(x->s.basis[r][i - 1], x->f.p);
}

static void put_multiple(uint8_t *out, const Forms *x, size_t end, size_t i, size_t c) {
    uint8_t last = x->s.inverse[end][c];
    uint32_t more = (uint32_t)(x->f.p - x->s.inverse[i - 1][c]);
    size_t k = 0;
    for (; i + k <= end; k++) {
        out[k] = remainder_of(more + (uint32_t)opposite(x->s.form[i + k][end], x->f.p) * last, &x->f);
        more = 0;
    }
    out[k] = last;
}

static void put_qi(uint8_t *out, const Forms *x, size_t end, size_t i, size_t c) {
    if (is_head(x->s.form, i))
        out[0] = x->s.inverse[end][c];
    else if (x->s.inverse[end][c] == 0)
        out[0] = opposite(x->s.inverse[i - 1][c], x->f.p);
    else
        put_multiple(out, x, end, i, c);
}

/* The entry (r, c) of P, its inverse, Q or its inverse: records 3 to 6. */
static void put_closed_entry(uint8_t *out, const Forms *x, size_t record, size_t r, size_t c) {
    size_t i = x->from[record == 3 || record == 6 ? r : c], end = x->last[i];
    if (record == 3) return put_p(out, x, end, i, c);
    if (record == 4) return put_pi(out, x, r, i);
    if (record == 5) return put_q(out, x, end, r, i);
    put_qi(out, x, end, i, c);
}

static uint8_t *put_polynomials(uint8_t *out, const Forms *x, size_t record) {
    size_t n = x->f.n;
    for (size_t r = 0; r < n; r++, out += n * n) {
        memset(out, 0, n * n);
        for (size_t c = 0; c < n; c++) put_closed_entry(out + c * n, x, record, r, c);
    }
    return out;
}

static uint8_t *put_diagonal(uint8_t *out, const Forms *x) {
    for (size_t b = 0; b < x->f.n; b++) {
        size_t i = x->from[b], end = x->last[i];
        for (size_t k = 0; k <= x->f.n; k++) *out++ = d_coefficient(x, i, end, k);
    }
    return out;
}

static uint8_t *put_matrix(uint8_t *out, const Mat m, size_t n) {
    for (size_t i = 0; i < n; i++, out += n) memcpy(out, m[i], n);
    return out;
}

static uint8_t *put_payload(uint8_t *out, size_t record, const Forms *x, const uint8_t *matrix) {
    const Row *fields[3] = {x->s.form, x->s.basis, x->s.inverse};
    size_t square = x->f.n * x->f.n;
    if (record == 0) {
        out[0] = x->f.p;
        out[1] = (uint8_t)x->f.n;
        return out + 2;
    }
    if (record == 1) return (uint8_t *)memcpy(out, matrix, square) + square;
    if (record == 2) return put_diagonal(out, x);
    if (record < 7) return put_polynomials(out, x, record);
    return put_matrix(out, fields[record - 7], x->f.n);
}

static uint8_t *put_head(uint8_t *out, size_t record, size_t size) {
    out[0] = plain_marks[2 * record];
    out[1] = plain_marks[2 * record + 1];
    out[2] = (uint8_t)(size % 256);
    out[3] = (uint8_t)(size / 256);
    return out + 4;
}

/* What is refused, in document 01's order. */
static Answer asked(uint64_t p, uint64_t n, const uint8_t *matrix, size_t matrix_length, size_t room) {
    Answer limits = plain_limits(n, p);
    if (limits.number != 0) return limits;
    if (matrix_length != n * n) return (Answer){3, matrix_length};
    for (size_t i = 0; i < matrix_length; i++)
        if (p <= matrix[i]) return (Answer){4, i};
    size_t needed = record_start(n, RECORDS);
    if (room < needed) return (Answer){5, needed};
    return (Answer){0, needed};
}

Answer plain_analysis(uint64_t p, uint64_t n, const uint8_t *matrix, size_t matrix_length, uint8_t *out, size_t out_length) {
    Answer answer = asked(p, n, matrix, matrix_length, out_length);
    if (answer.number != 0) return answer;
    Forms x = {.f = {.n = n, .p = (uint8_t)p, .factor = UINT32_MAX / (uint32_t)p + 1ull}};
    reduce(&x.s, matrix, &x.f);
    find_order(&x);
    find_last_rows(&x);
    for (size_t k = 0; k < RECORDS; k++) {
        out = put_head(out, k, payload_size(n, k));
        out = put_payload(out, k, &x, matrix);
    }
    return answer;
}
