/* The contestants that work on bytes: the library, the same algorithm in plain C, and the independent Rust program. */
#include "bench.h"
#include "plain.h"
#include <string.h>

/* independent.rs */
extern size_t independent_certify(unsigned p, unsigned n, const uint8_t *matrix, uint8_t *out);
extern unsigned independent_check(const uint8_t *certificate, size_t length, uint64_t *place);

enum { DAMAGED = 40 };
static uint8_t out[NYARGULET_ROOM];
static volatile uint64_t answer; /* so that no call is left out */

static void library_analyse(const Case *cases, int at) {
    const Case *c = &cases[at];
    uint64_t place;
    answer = nyargulet_analysis(c->p, c->n, c->matrix, c->n * c->n, out, sizeof out, &place);
}

static void library_check(const Case *cases, int at) {
    uint64_t place;
    answer = nyargulet_check(cases[at].certificate, cases[at].length, &place);
}

/* Its certificates are accepted by its own check. */
static int library_agrees(const Case *cases, int at) {
    uint64_t place;
    return nyargulet_check(cases[at].certificate, cases[at].length, &place) == 0 && place == cases[at].length;
}

static void plain_c_analyse(const Case *cases, int at) {
    const Case *c = &cases[at];
    answer = plain_analysis(c->p, c->n, c->matrix, c->n * c->n, out, sizeof out).number;
}

static void plain_c_check(const Case *cases, int at) { answer = plain_check(cases[at].certificate, cases[at].length).number; }

static void independent_analyse(const Case *cases, int at) {
    const Case *c = &cases[at];
    answer = independent_certify(c->p, c->n, c->matrix, out);
}

static void independent_ask(const Case *cases, int at) {
    uint64_t place;
    answer = independent_check(cases[at].certificate, cases[at].length, &place);
}

/* All three checks give one number and one place. */
static int same_answers(const Case *c) {
    uint64_t place, other;
    unsigned number = nyargulet_check(c->certificate, c->length, &place);
    Answer plain = plain_check(c->certificate, c->length);
    unsigned third = independent_check(c->certificate, c->length, &other);
    return plain.number == number && plain.place == place && third == number && other == place;
}

static int same_answers_when_damaged(const Case *c) {
    static Case damaged;
    for (int k = 0; k < DAMAGED; k++) {
        damage(&damaged, c);
        if (!same_answers(&damaged)) return 0;
    }
    return same_answers(c);
}

/* The same bytes, and the same answer to good and damaged certificates. */
static int plain_agrees(const Case *cases, int at) {
    const Case *c = &cases[at];
    memset(out, 0xEE, sizeof out);
    Answer plain = plain_analysis(c->p, c->n, c->matrix, c->n * c->n, out, sizeof out);
    return plain.number == 0 && plain.place == c->length && memcmp(out, c->certificate, c->length) == 0 && same_answers_when_damaged(c);
}

/* The same bytes up to the end of DF, the same FB, and a certificate that the library accepts. */
static int independent_agrees(const Case *cases, int at) {
    const Case *c = &cases[at];
    Case other = *c;
    uint64_t place;
    size_t front = (size_t)(part(c, "PL") - c->certificate);
    if (independent_certify(c->p, c->n, c->matrix, other.certificate) != c->length) return 0;
    return memcmp(other.certificate, c->certificate, front) == 0 && memcmp(part(&other, "FB"), part(c, "FB"), c->n * c->n) == 0 &&
           nyargulet_check(other.certificate, other.length, &place) == 0;
}

const Contestant library = {"the library", NULL, library_analyse, library_check, library_agrees};
const Contestant plain_c = {"plain C", NULL, plain_c_analyse, plain_c_check, plain_agrees};
const Contestant independent = {"independent Rust", NULL, independent_analyse, independent_ask, independent_agrees};
