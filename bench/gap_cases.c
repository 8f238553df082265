/* The first cases of each kind as a GAP program that defines the list `cases`. */
#include "bench.h"
#include <stdio.h>

enum { FOR_GAP = 2 };

/* `count` numbers an entry; a list of rows of entries. */
static void write_rows(const char *name, const uint8_t *bytes, unsigned rows, unsigned columns, unsigned count) {
    printf(", %s := [", name);
    for (unsigned i = 0; i < rows; i++) {
        printf("%s[", i == 0 ? "" : ",");
        for (unsigned j = 0; j < columns; j++) {
            printf("%s[", j == 0 ? "" : ",");
            for (unsigned k = 0; k < count; k++) printf("%s%u", k == 0 ? "" : ",", bytes[(i * columns + j) * count + k]);
            printf("]");
        }
        printf("]\n");
    }
    printf("]");
}

static void write_case(const Case *c, int kind) {
    unsigned n = c->n;
    printf("Add(cases, rec(kind := %d, p := %u", kind, c->p);
    write_rows("A", part(c, "MA"), n, n, 1);
    write_rows("D", part(c, "DF"), 1, n, n + 1);
    write_rows("P", part(c, "PL"), n, n, n);
    write_rows("PI", part(c, "PI"), n, n, n);
    write_rows("Q", part(c, "QR"), n, n, n);
    write_rows("QI", part(c, "QI"), n, n, n);
    write_rows("F", part(c, "FB"), n, n, 1);
    write_rows("T", part(c, "TB"), n, n, 1);
    write_rows("TI", part(c, "TI"), n, n, 1);
    printf("));\n");
}

void write_gap_cases(void) {
    static Case cases[CASES];
    printf("cases := [];;\n");
    for (int kind = 0; kind < KINDS; kind++) {
        fill_cases(cases, 0, kind, NYARGULET_ORDER);
        for (int at = 0; at < FOR_GAP; at++) write_case(&cases[at], kind);
    }
}
