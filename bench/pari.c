/* PARI, in process, twice. As gp computes: matrices of Mod(., p), matfrobenius(M, 2), and `*` on matrices of polynomials. And with libpari's
   products for small primes, which gp does not reach by `*`. The objects are made before any timing, and the stack is reset after each. */
#include "bench.h"
#include <pari/pari.h>

typedef struct {
    GEN a, d, p, pi, q, qi, f, t, ti, xa, e;
} Objects;

static Objects with_mod[SETS * CASES], with_small[SETS * CASES];
static GEN modulus; /* X^25: no product of the rules has that degree */
static volatile int holds;

void pari_begin(void) {
    pari_init(512000000, 0);
    modulus = zero_zv(2 * NYARGULET_ORDER + 3);
    modulus[2 * NYARGULET_ORDER + 3] = 1;
    modulus = gclone(modulus);
}

typedef GEN (*Maker)(const uint8_t *coefficients, unsigned count, unsigned p);

static GEN mod_number(const uint8_t *x, unsigned count, unsigned p) {
    (void)count;
    return mkintmodu(*x, p);
}

static GEN mod_polynomial(const uint8_t *x, unsigned count, unsigned p) {
    GEN f = cgetg(count + 2, t_POL);
    f[1] = evalsigne(1) | evalvarn(0);
    for (unsigned k = 0; k < count; k++) gel(f, k + 2) = mkintmodu(x[k], p);
    return normalizepol(f);
}

static GEN small_polynomial(const uint8_t *x, unsigned count, unsigned p) {
    (void)p;
    GEN f = cgetg(count + 2, t_VECSMALL);
    f[1] = evalvarn(0);
    for (unsigned k = 0; k < count; k++) f[k + 2] = x[k];
    return Flx_renormalize(f, count + 2);
}

/* A matrix of entries of `count` bytes each. */
static GEN square(const uint8_t *bytes, unsigned n, unsigned count, unsigned p, Maker make) {
    GEN m = cgetg(n + 1, t_MAT);
    for (unsigned j = 0; j < n; j++) {
        gel(m, j + 1) = cgetg(n + 1, t_COL);
        for (unsigned i = 0; i < n; i++) gmael(m, j + 1, i + 1) = make(bytes + (i * n + j) * count, count, p);
    }
    return m;
}

static GEN small_square(const uint8_t *bytes, unsigned n) {
    GEN m = cgetg(n + 1, t_MAT);
    for (unsigned j = 0; j < n; j++) {
        gel(m, j + 1) = cgetg(n + 1, t_VECSMALL);
        for (unsigned i = 0; i < n; i++) mael(m, j + 1, i + 1) = bytes[i * n + j];
    }
    return m;
}

/* D, or XE-A, as bytes of n + 1 coefficients an entry. */
static void spread(uint8_t *bytes, const Case *c, int characteristic) {
    unsigned n = c->n, p = c->p;
    const uint8_t *d = part(c, "DF");
    for (unsigned at = 0; at < n * n; at++) {
        unsigned i = at / n, j = at % n;
        for (unsigned k = 0; k <= n; k++) bytes[at * (n + 1) + k] = !characteristic && i == j ? d[i * (n + 1) + k] : 0;
        if (characteristic) bytes[at * (n + 1)] = (uint8_t)((p - c->matrix[at]) % p);
        if (characteristic && i == j) bytes[at * (n + 1) + 1] = 1;
    }
}

static Objects objects_of(const Case *c, Maker polynomial) {
    static uint8_t wide[NYARGULET_ORDER * NYARGULET_ORDER * (NYARGULET_ORDER + 1)];
    unsigned n = c->n, p = c->p;
    Objects x;
    x.p = square(part(c, "PL"), n, n, p, polynomial);
    x.pi = square(part(c, "PI"), n, n, p, polynomial);
    x.q = square(part(c, "QR"), n, n, p, polynomial);
    x.qi = square(part(c, "QI"), n, n, p, polynomial);
    spread(wide, c, 0);
    x.d = square(wide, n, n + 1, p, polynomial);
    spread(wide, c, 1);
    x.xa = square(wide, n, n + 1, p, polynomial);
    return x;
}

static Objects mod_objects(const Case *c) {
    Objects x = objects_of(c, mod_polynomial);
    x.a = square(part(c, "MA"), c->n, 1, c->p, mod_number);
    x.f = square(part(c, "FB"), c->n, 1, c->p, mod_number);
    x.t = square(part(c, "TB"), c->n, 1, c->p, mod_number);
    x.ti = square(part(c, "TI"), c->n, 1, c->p, mod_number);
    x.e = matid(c->n);
    return x;
}

static Objects small_objects(const Case *c) {
    Objects x = objects_of(c, small_polynomial);
    x.a = small_square(part(c, "MA"), c->n);
    x.f = small_square(part(c, "FB"), c->n);
    x.t = small_square(part(c, "TB"), c->n);
    x.ti = small_square(part(c, "TI"), c->n);
    x.e = matid_Flm(c->n);
    return x;
}

/* Set 0 begins anew, and the objects of all that were there are gone. */
static void prepare(const Case *cases) {
    if (cases[0].number == 0) set_avma(pari_mainstack->top);
    for (int k = 0; k < CASES; k++) {
        with_mod[cases[k].number] = mod_objects(&cases[k]);
        with_small[cases[k].number] = small_objects(&cases[k]);
    }
}

/* Rules 4, 5, 6 as P(XE-A) = D QI, 8 and 9, by gp's operations. */
static int mod_rules(const Objects *x) {
    return gequal(gmul(x->p, x->pi), x->e) && gequal(gmul(x->q, x->qi), x->e) && gequal(gmul(x->p, x->xa), gmul(x->d, x->qi)) &&
           gequal(gmul(x->t, x->ti), x->e) && gequal(gmul(x->a, x->t), gmul(x->t, x->f));
}

static int is_unit(GEN m) {
    for (long j = 1; j < lg(m); j++)
        for (long i = 1; i < lg(m); i++) {
            GEN x = gcoeff(m, i, j);
            if (lg(x) != (i == j ? 3 : 2) || (i == j && x[2] != 1)) return 0;
        }
    return 1;
}

/* The same by products for small primes. */
static int small_rules(const Objects *x, ulong p) {
    return is_unit(FlxqM_mul(x->p, x->pi, modulus, p)) && is_unit(FlxqM_mul(x->q, x->qi, modulus, p)) &&
           gequal(FlxqM_mul(x->p, x->xa, modulus, p), FlxqM_mul(x->d, x->qi, modulus, p)) &&
           gequal(Flm_mul(x->t, x->ti, p), x->e) && gequal(Flm_mul(x->a, x->t, p), Flm_mul(x->t, x->f, p));
}

static void gp_analyse(const Case *cases, int at) {
    pari_sp top = avma;
    holds = lg(matfrobenius(with_mod[cases[at].number].a, 2, 0));
    set_avma(top);
}

static void gp_check(const Case *cases, int at) {
    pari_sp top = avma;
    holds = mod_rules(&with_mod[cases[at].number]);
    set_avma(top);
}

static void small_check(const Case *cases, int at) {
    pari_sp top = avma;
    holds = small_rules(&with_small[cases[at].number], cases[at].p);
    set_avma(top);
}

/* matfrobenius's polynomials, the largest first, are those of D that are not 1. */
static int same_polynomials(const Case *c, GEN found) {
    long n = (long)c->n, count = lg(found) - 1;
    for (long k = 1; k <= n; k++) {
        GEN f = mod_polynomial(part(c, "DF") + (n - k) * (n + 1), c->n + 1, c->p);
        if (k <= count ? !gequal(gel(found, k), f) : !gequal1(f)) return 0;
    }
    return 1;
}

/* The case with another P: its first entry has another highest coefficient, which a modulus of too small a degree would hide. */
static Case with_other_p(const Case *c) {
    Case other = *c;
    uint8_t *highest = other.certificate + (part(c, "PL") - c->certificate) + c->n - 1;
    *highest = (uint8_t)((*highest + 1) % c->p);
    return other;
}

static int gp_agrees(const Case *cases, int at) {
    pari_sp top = avma;
    Case other = with_other_p(&cases[at]);
    Objects wrong = mod_objects(&other);
    const Objects *right = &with_mod[cases[at].number];
    int agrees = same_polynomials(&cases[at], matfrobenius(right->a, 1, 0)) && mod_rules(right) && !mod_rules(&wrong);
    set_avma(top);
    return agrees;
}

static int small_agrees(const Case *cases, int at) {
    pari_sp top = avma;
    Case other = with_other_p(&cases[at]);
    Objects wrong = small_objects(&other);
    int agrees = small_rules(&with_small[cases[at].number], cases[at].p) && !small_rules(&wrong, cases[at].p);
    set_avma(top);
    return agrees;
}

const Contestant pari_gp = {"PARI/GP", prepare, gp_analyse, gp_check, gp_agrees};
const Contestant pari_small = {"libpari, small primes", NULL, NULL, small_check, small_agrees};
