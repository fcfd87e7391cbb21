/* Times the proved square root against the processor's own, in one run: in each of 101 rounds the same
   numbers go through each, one after the other. The medians are printed with their ratios to the
   processor's, and the fastest rounds, which other work on the machine disturbed least. Each answer is
   compared with the processor's too. bench/root builds and runs it; with OTHER the root of another
   library is timed beside them. */
#include <stdint.h>
#include <stdio.h>
#include <stdlib.h>
#include <string.h>
#include <time.h>

#include "walkprint.h"

enum { NUMBERS = 1 << 14, ROUNDS = 101 };

/* Not inlined, as the proved one is not: all are timed with the cost of a call. */
__attribute__((noinline)) static double hardware_square_root(double x) {
    double r;
    __asm__ volatile("sqrtsd %1, %0" : "=x"(r) : "x"(x));
    return r;
}

#ifdef OTHER
double other_square_root(double x);
#endif

/* A way to take a root, its answers in the last round, and what each round took, in ns a root. */
struct way {
    const char *name;
    double (*root)(double);
    double answers[NUMBERS];
    double rounds[ROUNDS];
};

/* The processor's is the last. */
static struct way ways[] = {
    {.name = "proved", .root = walkprint_square_root},
#ifdef OTHER
    {.name = "other", .root = other_square_root},
#endif
    {.name = "hardware", .root = hardware_square_root},
};

enum { WAYS = sizeof ways / sizeof *ways };

static double numbers[NUMBERS];

static double seconds(void) {
    struct timespec t;
    clock_gettime(CLOCK_MONOTONIC, &t);
    return t.tv_sec + t.tv_nsec * 1e-9;
}

static double nanoseconds_a_root(struct way *way) {
    double from = seconds();
    for (int i = 0; i < NUMBERS; i++) way->answers[i] = way->root(numbers[i]);
    return (seconds() - from) * 1e9 / NUMBERS;
}

static int by_size(const void *a, const void *b) {
    double x = *(const double *)a, y = *(const double *)b;
    return (x > y) - (x < y);
}

static void print_round(const char *which, int round) {
    double hardware = ways[WAYS - 1].rounds[round];
    printf("%s round:", which);
    for (int i = 0; i < WAYS - 1; i++) {
        double taken = ways[i].rounds[round];
        printf(" %s %.1f ns a root (%.0f times),", ways[i].name, taken, taken / hardware);
    }
    printf(" hardware %.1f ns\n", hardware);
}

/* Sums of three squares of numbers below 32: what a distance between waypoints takes the root of. */
static void make_numbers(void) {
    uint64_t w = 0x2545f4914f6cdd1d;
    for (int i = 0; i < NUMBERS; i++) {
        double sum = 0;
        for (int k = 0; k < 3; k++) {
            w ^= w << 13, w ^= w >> 7, w ^= w << 17;
            double d = (double)(w >> 40) / (1 << 19);
            sum += d * d;
        }
        numbers[i] = sum;
    }
}

int main(void) {
    make_numbers();
    for (int round = 0; round < ROUNDS; round++) {
        for (int i = 0; i < WAYS; i++) ways[i].rounds[round] = nanoseconds_a_root(&ways[i]);
    }
    for (int i = 0; i < WAYS; i++) {
        if (memcmp(ways[i].answers, ways[WAYS - 1].answers, sizeof ways[i].answers)) {
            printf("the answers of %s differ from the hardware's\n", ways[i].name);
            return 1;
        }
        qsort(ways[i].rounds, ROUNDS, sizeof *ways[i].rounds, by_size);
    }
    print_round("median", ROUNDS / 2);
    print_round("fastest", 0);
    return 0;
}
