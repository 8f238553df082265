/* The tables of ratios: the library against each contestant by kind of matrix at n = 12, and each contestant's growth with n.
   Usage: bench kinds (their number), bench cases (the matrices for GAP), or bench [FILE], where FILE has GAP's own times. */
#include "bench.h"
#include "plain.h"
#include <stdio.h>
#include <stdlib.h>
#include <string.h>

static const Contestant *const contestants[] = {&library, &plain_c, &independent,
#ifdef WITH_PARI
                                                &pari_gp, &pari_small
#endif
};
enum { COUNT = sizeof contestants / sizeof contestants[0], LIBRARY = 0, PLAIN = 1, PARI = 3, MOST = 5, GAP = MOST, COLUMNS };
static const char *const headings[COLUMNS] = {"library", "ours/plain C", "Rust/ours", "PARI/ours", "libpari/ours", "GAP/ours"};

typedef void (*Operation)(const Case *cases, int at);

typedef struct {
    Measured analysis[COLUMNS], check[COLUMNS];
} Times;

static Case sets[SETS][CASES]; /* set 0 for the kinds in turn, set n for order n */
static Times by_kind[KINDS], by_order[NYARGULET_ORDER + 1];

static Operation operation_of(int contestant, int check) {
    return check ? contestants[contestant]->check : contestants[contestant]->analyse;
}

/* Fills a set. Nothing is timed before every contestant has given the same answers. */
static void prepare_set(int set, int kind, unsigned n) {
    Case *cases = sets[set];
    fill_cases(cases, set, kind, n);
    for (int k = 0; k < COUNT; k++) {
        if (contestants[k]->prepare != NULL) contestants[k]->prepare(cases);
        for (int at = 0; at < CASES; at++)
            if (!contestants[k]->agrees(cases, at)) {
                fprintf(stderr, "FAILED: %s does not agree on %s, n %u, matrix %d\n", contestants[k]->name, kind_names[kind], n, at);
                exit(1);
            }
    }
}

/* All contestants on one kind, in one stretch of time. */
static void measure_kind(int kind, int check) {
    Task tasks[COUNT];
    Measured found[COUNT];
    int whose[COUNT], count = 0;
    for (int k = 0; k < COUNT; k++) {
        if (operation_of(k, check) == NULL) continue;
        whose[count] = k;
        tasks[count++] = (Task){operation_of(k, check), sets[0]};
    }
    time_in_turn(tasks, count, found);
    for (int k = 0; k < count; k++) (check ? by_kind[kind].check : by_kind[kind].analysis)[whose[k]] = found[k];
}

/* One contestant at all orders, in one stretch of time. */
static void measure_growth(int contestant, int check) {
    Task tasks[NYARGULET_ORDER];
    Measured found[NYARGULET_ORDER];
    if (operation_of(contestant, check) == NULL) return;
    for (int n = 2; n <= NYARGULET_ORDER; n++) tasks[n - 2] = (Task){operation_of(contestant, check), sets[n]};
    time_in_turn(tasks, NYARGULET_ORDER - 1, found);
    for (int n = 2; n <= NYARGULET_ORDER; n++) (check ? by_order[n].check : by_order[n].analysis)[contestant] = found[n - 2];
}

static void measure_all(void) {
    for (int kind = 0; kind < KINDS; kind++) {
        prepare_set(0, kind, NYARGULET_ORDER);
        measure_kind(kind, 0);
        measure_kind(kind, 1);
    }
    for (int n = 2; n <= NYARGULET_ORDER; n++) prepare_set(n, 0, (unsigned)n);
    for (int k = 0; k < COUNT; k++) {
        measure_growth(k, 0);
        measure_growth(k, 1);
    }
}

/* GAP's times: lines of a kind's number, the analysis and the check. */
static void read_gap_times(const char *path) {
    FILE *file = fopen(path, "r");
    int kind;
    double analysis, check;
    if (file == NULL) return;
    while (fscanf(file, "%d %lf %lf", &kind, &analysis, &check) == 3)
        if (0 <= kind && kind < KINDS) {
            by_kind[kind].analysis[GAP] = (Measured){analysis, {analysis, analysis}};
            by_kind[kind].check[GAP] = (Measured){check, {check, check}};
        }
    fclose(file);
}

/* The first over the second, and the same from each half of the rounds; 0 where there is no such time. */
typedef struct {
    double whole, half[2];
} Ratio;

static Ratio over(Measured x, Measured y) {
    if (x.whole == 0 || y.whole == 0) return (Ratio){0, {0, 0}};
    return (Ratio){x.whole / y.whole, {x.half[0] / y.half[0], x.half[1] / y.half[1]}};
}

/* The library over plain C, and every other contestant over the library. */
static Ratio ratio(const Measured *times, int column) {
    return column == PLAIN ? over(times[LIBRARY], times[PLAIN]) : over(times[column], times[LIBRARY]);
}

/* The halves differ by more than a tenth. */
static int is_doubtful(Ratio r) { return r.half[0] > 1.1 * r.half[1] || r.half[1] > 1.1 * r.half[0]; }

static void print_ratio(Ratio r) {
    if (r.whole == 0)
        printf(" %13s ", "-");
    else
        printf(r.whole < 10 ? " %13.2f%c" : " %13.0f%c", r.whole, is_doubtful(r) ? '?' : ' ');
}

static void print_kinds(const char *title, int check) {
    printf("\n%s\n%-22s", title, "");
    for (int k = PLAIN; k < COLUMNS; k++) printf(" %13s ", headings[k]);
    printf("\n");
    for (int kind = 0; kind < KINDS; kind++) {
        printf("%-22s", kind_names[kind]);
        for (int k = PLAIN; k < COLUMNS; k++) print_ratio(ratio(check ? by_kind[kind].check : by_kind[kind].analysis, k));
        printf("\n");
    }
}

static void print_growth(const char *title, int check) {
    printf("\n%s\n%-22s", title, "");
    for (unsigned n = 2; n <= NYARGULET_ORDER; n++) printf(" %6u", n);
    printf("\n");
    for (int k = 0; k < COUNT; k++) {
        if (operation_of(k, check) == NULL) continue;
        printf("%-22s", contestants[k]->name);
        for (unsigned n = 2; n <= NYARGULET_ORDER; n++) {
            Measured at_n = check ? by_order[n].check[k] : by_order[n].analysis[k];
            Measured at_2 = check ? by_order[2].check[k] : by_order[2].analysis[k];
            printf(" %6.1f", at_n.whole / at_2.whole);
        }
        printf("\n");
    }
}

/* A goal on one column over kinds [0, count): the worst of them decides. It is open where the halves of the rounds decide differently. */
static void print_goal(const char *goal, int check, int column, int count, double bound) {
    int most = column == PLAIN, worst = 0;
    Ratio found[KINDS];
    for (int kind = 0; kind < count; kind++) found[kind] = ratio(check ? by_kind[kind].check : by_kind[kind].analysis, column);
    for (int kind = 1; kind < count; kind++)
        if (most ? found[kind].whole > found[worst].whole : found[kind].whole < found[worst].whole) worst = kind;
    Ratio r = found[worst];
    if (r.whole == 0) {
        printf("not measured: %s\n", goal);
        return;
    }
    int holds[2];
    for (int k = 0; k < 2; k++) holds[k] = most ? r.half[k] <= bound : r.half[k] >= bound;
    const char *verdict = holds[0] != holds[1] ? "OPEN" : holds[0] ? "met" : "NOT met";
    printf("%s: %s (%.2f at worst, %s; halves %.2f and %.2f)\n", verdict, goal, r.whole, kind_names[worst], r.half[0], r.half[1]);
}

static void print_goals(void) {
    printf("\nGoals at n = 12\n");
    print_goal("analysis at least 10 times faster than matfrobenius(M,2) on random matrices", 0, PARI, 2, 10);
    print_goal("analysis not slower than matfrobenius(M,2) on any kind", 0, PARI, KINDS, 1);
    print_goal("analysis within 1.3 times of plain C", 0, PLAIN, KINDS, 1.3);
    print_goal("check within 1.3 times of plain C", 1, PLAIN, KINDS, 1.3);
    print_goal("check at least 10 times faster than PARI/GP's products", 1, PARI, KINDS, 10);
    print_goal("the same against libpari's products for small primes", 1, PARI + 1, KINDS, 10);
}

int main(int words, char **word) {
    plain_prepare();
    if (words > 1 && strcmp(word[1], "kinds") == 0) return printf("%d\n", KINDS) < 0;
    if (words > 1 && strcmp(word[1], "cases") == 0) {
        write_gap_cases();
        return 0;
    }
#ifdef WITH_PARI
    pari_begin();
#endif
    measure_all();
    if (words > 1) read_gap_times(word[1]);
    printf("A ? marks a ratio whose two halves of the rounds differ by more than a tenth.\n");
    print_kinds("Analysis, n = 12: ratios of times", 0);
    print_kinds("Check, n = 12: ratios of times", 1);
    print_growth("Analysis, random matrices modulo 251: the time at n over the time at 2", 0);
    print_growth("Check, random matrices modulo 251: the time at n over the time at 2", 1);
    print_goals();
    printf("\n%ld of %ld readings were below half of their median.\n", impossible_readings, readings);
    return impossible_readings * 100 > readings;
}
