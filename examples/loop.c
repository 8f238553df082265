/* My pass rewrote a loop: make, keep, check and read the certificate, then walk the old loop and the new one side by side.
   Usage: loop FILE, where the certificate is kept. */
#include "nyargulet.h"
#include <stdio.h>
#include <stdlib.h>
#include <string.h>

enum { PRIME = 5, ORDER = 2, STEPS = 12, LENGTH = NYARGULET_LENGTH(ORDER) };

/* The old loop steps a state x by x' = A x. */
static const uint8_t OLD[ORDER * ORDER] = {2, 1, 0, 3};

/* product = a matrix, row by row, times x. */
static void times(const uint8_t *matrix, const uint8_t *x, uint8_t *product) {
    for (int i = 0; i < ORDER; i++) {
        unsigned sum = 0;
        for (int j = 0; j < ORDER; j++) sum += (unsigned)matrix[i * ORDER + j] * x[j];
        product[i] = (uint8_t)(sum % PRIME);
    }
}

/* x = matrix times x. */
static void step(const uint8_t *matrix, uint8_t *x) {
    uint8_t next[ORDER];
    times(matrix, x, next);
    memcpy(x, next, ORDER);
}

/* The payload under a mark, in the certificate itself. */
static const uint8_t *payload(const uint8_t *certificate, const char *mark) {
    uint64_t start;
    if (nyargulet_find(certificate, LENGTH, (const uint8_t *)mark, 2, &start) == 0) exit(1);
    return certificate + start;
}

/* Walks the old loop from x and the new loop from the inverse of T times x; counts the steps at which T does not turn back. */
static int differences(const uint8_t *certificate, const uint8_t *x) {
    uint8_t old[ORDER], blocks[ORDER], turned_back[ORDER];
    int count = 0;
    memcpy(old, x, ORDER);
    times(payload(certificate, "TI"), x, blocks);
    for (int k = 0; k < STEPS; k++) {
        step(OLD, old);
        step(payload(certificate, "FB"), blocks);
        times(payload(certificate, "TB"), blocks, turned_back);
        count += memcmp(turned_back, old, ORDER) != 0;
    }
    return count;
}

/* Makes the certificate of the old loop's matrix and keeps it in a file. */
static int make_and_keep(const char *file) {
    uint8_t made[LENGTH];
    uint64_t place;
    uint8_t number = nyargulet_analysis(PRIME, ORDER, OLD, sizeof OLD, made, sizeof made, &place);
    if (number != 0) return fprintf(stderr, "refused %d %llu\n", number, (unsigned long long)place), 1;
    printf("made %llu bytes\n", (unsigned long long)place);
    FILE *kept = fopen(file, "wb");
    if (kept == NULL || fwrite(made, 1, place, kept) != place || fclose(kept) != 0) return perror(file), 1;
    return 0;
}

/* Checks a certificate from anyone, prints the answer, and returns its number. */
static int print_check(const char *before, const uint8_t *certificate, size_t length) {
    uint64_t place;
    uint8_t number = nyargulet_check(certificate, length, &place);
    if (number == 0) printf("%saccepted %llu\n", before, (unsigned long long)place);
    else printf("%srefused %d %llu\n", before, number, (unsigned long long)place);
    return number;
}

/* Reads the blocks from a certificate that was checked, and walks both loops from every state. */
static void read_and_walk(const uint8_t *certificate) {
    const uint8_t *form = payload(certificate, "FB");
    int states = 0, wrong = 0;
    for (int i = 0; i < ORDER; i++) printf("F %d: %d %d\n", i + 1, form[i * ORDER], form[i * ORDER + 1]);
    for (uint8_t first = 0; first < PRIME; first++) {
        for (uint8_t second = 0; second < PRIME; second++) {
            const uint8_t x[ORDER] = {first, second};
            states++;
            wrong += differences(certificate, x);
        }
    }
    printf("%d states, %d steps each: %d differences\n", states, STEPS, wrong);
}

int main(int words, char **word) {
    uint8_t kept[LENGTH + 1]; /* one byte more, so that a longer file is not read as a whole one */
    if (words != 2) return fprintf(stderr, "usage: loop FILE\n"), 2;
    if (make_and_keep(word[1]) != 0) return 1;

    FILE *file = fopen(word[1], "rb");
    if (file == NULL) return perror(word[1]), 1;
    size_t length = fread(kept, 1, sizeof kept, file);
    fclose(file);
    if (print_check("", kept, length) != 0) return 1;
    read_and_walk(kept);

    kept[payload(kept, "FB") - kept] = 1; /* a pass that wrote another first entry into F */
    print_check("altered: ", kept, length);
    return 0;
}
