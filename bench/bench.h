/* The benchmark: cases of several kinds, and contestants that analyse and check them in turn. */
#ifndef BENCH_H
#define BENCH_H

#include "nyargulet.h"

enum { CASES = 8, SETS = NYARGULET_ORDER + 1, TASKS = SETS };

/* One matrix to try, with the library's certificate of it. `number` tells it from every other case of all sets. */
typedef struct {
    int number;
    unsigned p, n;
    uint8_t matrix[NYARGULET_ORDER * NYARGULET_ORDER];
    size_t length;
    uint8_t certificate[NYARGULET_ROOM];
} Case;

/* Each operation does case number `at` once, and is NULL where the contestant has none. `agrees` is asked before any timing. */
typedef struct {
    const char *name;
    void (*prepare)(const Case *cases);
    void (*analyse)(const Case *cases, int at);
    void (*check)(const Case *cases, int at);
    int (*agrees)(const Case *cases, int at);
} Contestant;

extern const Contestant library, plain_c, independent, pari_gp, pari_small;
void pari_begin(void);

/* The first cases of each kind, for GAP to read. */
void write_gap_cases(void);

/* Inputs. */
enum { KINDS = 9 };
extern const char *const kind_names[KINDS];
void fill_cases(Case *cases, int set, int kind, unsigned n);
unsigned random_below(unsigned bound);

/* The case with one byte of its certificate changed, or now and then with another basis. */
void damage(Case *damaged, const Case *c);

/* The payload of a mark in the certificate. */
const uint8_t *part(const Case *c, const char *mark);

/* Microseconds of one case: from all rounds, and from the even and the odd ones alone. All 0 where nothing was measured. */
typedef struct {
    double whole, half[2];
} Measured;

/* What is timed: an operation on all cases of a set. */
typedef struct {
    void (*operation)(const Case *cases, int at);
    const Case *cases;
} Task;

void time_in_turn(const Task *tasks, int count, Measured *found);
extern long readings, impossible_readings;

#endif
