/* What the three targets share: the independent program's answers, demands that end the run, and counters for the answers. */
#ifndef FUZZ_COMMON_H
#define FUZZ_COMMON_H

#include "nyargulet.h"
#include <stdio.h>
#include <stdlib.h>
#include <string.h>

/* fuzz/independent.rs */
uint8_t independent_analysis(uint64_t p, uint64_t n, const uint8_t *matrix, size_t matrix_length, size_t out_length, uint64_t *place);
uint8_t independent_check(const uint8_t *certificate, size_t certificate_length, uint64_t *place);
uint64_t independent_find(const uint8_t *certificate, size_t certificate_length, const uint8_t *mark, size_t mark_length,
                          uint64_t *start);
uint8_t independent_forms(const uint8_t *certificate, size_t certificate_length);

/* What a place holds before a call, between two numbers that no call may change. */
#define UNWRITTEN UINT64_C(0x5A5A5A5A5A5A5A5A)
struct guarded_place {
    uint64_t before, place, after;
};
#define GUARDED_PLACE {~UNWRITTEN, UNWRITTEN, ~UNWRITTEN}

#define DEMAND(fact)                                                      \
    do {                                                                  \
        if (!(fact)) {                                                    \
            fprintf(stderr, "%s:%d: not so: %s\n", __FILE__, __LINE__, #fact); \
            abort();                                                      \
        }                                                                 \
    } while (0)

static inline void demand_guarded(const struct guarded_place *guarded) {
    DEMAND(guarded->before == ~UNWRITTEN && guarded->after == ~UNWRITTEN);
}

/* Tells libFuzzer of each number with its place, so that it keeps an input for each; elsewhere it is memory like any other. */
enum { NUMBERS = 12, PLACES = 512 };
__attribute__((section("__libfuzzer_extra_counters"))) static volatile uint8_t seen[NUMBERS * PLACES];
static inline void note(uint8_t number, uint64_t place) {
    DEMAND(number < NUMBERS);
    seen[number * PLACES + place % PLACES] = 1;
}

int LLVMFuzzerTestOneInput(const uint8_t *data, size_t size);

#endif
