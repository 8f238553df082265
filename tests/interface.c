/* The four operations through include/nyargulet.h, each with an answer and a refusal that document 01 gives. */
#include "nyargulet.h"
#include <stdio.h>
#include <string.h>

static int wrong;

static void expect(const char *what, uint64_t got, uint64_t wanted) {
    if (got == wanted) return;
    wrong++;
    printf("%s: %llu and not %llu\n", what, (unsigned long long)got, (unsigned long long)wanted);
}

/* Case b, into exactly the room it needs, and with one byte less. */
static void analysis(uint8_t *certificate) {
    const uint8_t matrix[4] = {2, 1, 0, 3};
    uint64_t place;
    expect("a short output", nyargulet_analysis(5, 2, matrix, 4, certificate, NYARGULET_LENGTH(2) - 1, &place), 5);
    expect("the length needed", place, 96);
    expect("case b", nyargulet_analysis(5, 2, matrix, 4, certificate, NYARGULET_LENGTH(2), &place), 0);
    expect("the length written", place, 96);
}

static void check(const uint8_t *certificate) {
    uint64_t place;
    expect("a certificate", nyargulet_check(certificate, 96, &place), 0);
    expect("the length read", place, 96);
    expect("its last byte gone", nyargulet_check(certificate, 95, &place), 6);
    expect("the record's start", place, 88);
}

static void find(const uint8_t *certificate) {
    const uint8_t form[4] = {0, 4, 1, 0};
    uint64_t start;
    expect("FB", nyargulet_find(certificate, 96, (const uint8_t *)"FB", 2, &start), 4);
    expect("where it starts", start, 76);
    expect("what it is", memcmp(certificate + start, form, 4) == 0, 1);
    expect("no mark", nyargulet_find(certificate, 96, (const uint8_t *)"FX", 2, &start), 0);
    expect("no start", start, 0);
}

static void reciprocal(void) {
    uint64_t value;
    expect("2 modulo 251", nyargulet_reciprocal(251, 2, &value), 0);
    expect("its reciprocal", value, 126);
    expect("modulo 257", nyargulet_reciprocal(257, 2, &value), 2);
    expect("its place", value, 257);
    expect("5 modulo 5", nyargulet_reciprocal(5, 5, &value), 4);
    expect("its place", value, 0);
}

int main(void) {
    uint8_t certificate[NYARGULET_ROOM];
    expect("the largest order's length", NYARGULET_LENGTH(NYARGULET_ORDER), NYARGULET_ROOM);
    analysis(certificate);
    check(certificate);
    find(certificate);
    reciprocal();
    printf("interface: %d wrong\n", wrong);
    return wrong != 0;
}
