/* Times the calls of ua_bench.h; see main. */
#define _POSIX_C_SOURCE 199309L
#include "loads.h"
#include <stdio.h>
#include <stdlib.h>
#include <string.h>
#include <time.h>

enum { SAMPLES = 15, OUT = 32 << 20 };
static const double SAMPLE_SECONDS = 0.02;

static calls all[2];
static size_t all_count = 1;

/* --- the same bytes --- */

/* Whether a library gives what is wanted, twice, and the bytes in `out`. */
static int is_right(const load *l, const calls *c, const bytes *in, uint8_t *out) {
    memset(out, 0, OUT);
    int64_t n = run(l, c, in, 1, out, OUT);
    if (n == wanted(l, in) && run(l, c, in, 2, NULL, 0) == n) return 1;
    printf("%s, %s: %lld, where %lld is wanted\n", l->name, c->name, (long long)n, (long long)wanted(l, in));
    return 0;
}

static int check(void) {
    uint8_t *out = malloc(OUT), *other = malloc(OUT);
    size_t good = 0;
    if (!out || !other) return 0;
    for (size_t i = 0; i < load_count; i++) {
        bytes in = loads[i].input();
        int right = is_right(&loads[i], &all[0], &in, out);
        if (right && all_count == 2) {
            right = is_right(&loads[i], &all[1], &in, other);
            if (right && memcmp(out, other, OUT)) {
                right = 0;
                printf("%s: other bytes\n", loads[i].name);
            }
        }
        if (right && (loads[i].work == WRITE || loads[i].work == BODY) && memcmp(out, in.at, in.len)) {
            right = 0;
            printf("%s: other bytes than were read\n", loads[i].name);
        }
        good += (size_t)right;
        free(in.at);
    }
    free(out);
    free(other);
    printf("%zu of %zu workloads give %s\n", good, load_count,
           all_count == 2 ? "the right answer, and the same bytes from both libraries" : "the right answer");
    return good == load_count;
}

/* --- time --- */

typedef struct {
    const load *load;
    const calls *calls; /* none: memcpy of `size` bytes */
    const bytes *in;
    uint8_t *from, *to;
    size_t size;
} task;

static double seconds(const task *t, uint32_t repeat) {
    struct timespec a, b;
    clock_gettime(CLOCK_MONOTONIC, &a);
    if (t->calls) {
        run(t->load, t->calls, t->in, repeat, NULL, 0);
    } else {
        for (uint32_t i = 0; i < repeat; i++) {
            memcpy(t->to, t->from, t->size);
            __asm__ volatile("" : : "r"(t->to) : "memory"); /* the copy is not left out */
        }
    }
    clock_gettime(CLOCK_MONOTONIC, &b);
    return (double)(b.tv_sec - a.tv_sec) + (double)(b.tv_nsec - a.tv_nsec) * 1e-9;
}

/* Seconds of one repetition, by `n` more than one, so that what is made once does not count. */
static double slope(const task *t, uint32_t n) {
    double one = seconds(t, 1), more = seconds(t, n + 1);
    return more > one ? (more - one) / n : 0;
}

/* How many repetitions take as long as a sample should. */
static uint32_t calibrated(const task *t) {
    for (uint32_t n = 1;; n *= 4) {
        double one = slope(t, n);
        if (one * n >= SAMPLE_SECONDS / 4 || n >= 1u << 26) {
            double most = one > 0 ? SAMPLE_SECONDS / one : n;
            return most < 1 ? 1 : most > 1u << 28 ? 1u << 28 : (uint32_t)most;
        }
    }
}

static int by_size(const void *a, const void *b) {
    double x = *(const double *)a, y = *(const double *)b;
    return (x > y) - (x < y);
}

static void say(const task *t, const double *ns, double copied, double first) {
    double median = ns[SAMPLES / 2], spread = (ns[SAMPLES * 3 / 4] - ns[SAMPLES / 4]) / median * 100;
    printf("| %s | %s | %s | %.1f | %.0f %% | %.0f | %.2f | %.2f |\n", t->load->name, t->load->unit, t->calls->name, median,
           spread, (double)t->size / (median * t->load->units) * 1e3, copied, median / first);
    fflush(stdout);
}

static void time_load(const load *l) {
    bytes in = l->input();
    size_t size = least_bytes(l, &in, wanted(l, &in));
    uint8_t *from = malloc(size + 1), *to = malloc(size + 1);
    task tasks[3];
    uint32_t repeat[3];
    double ns[3][SAMPLES];
    if (!from || !to) exit(2);
    memset(from, 7, size);
    for (size_t i = 0; i <= all_count; i++) {
        tasks[i] = (task){l, i < all_count ? &all[i] : NULL, &in, from, to, size};
        repeat[i] = calibrated(&tasks[i]);
    }
    for (size_t s = 0; s < SAMPLES; s++) /* in turn, so that a noisy moment meets all */
        for (size_t i = 0; i <= all_count; i++) ns[i][s] = slope(&tasks[i], repeat[i]) * 1e9 / l->units;
    for (size_t i = 0; i <= all_count; i++) qsort(ns[i], SAMPLES, sizeof(double), by_size);
    for (size_t i = 0; i < all_count; i++)
        say(&tasks[i], ns[i], ns[all_count][SAMPLES / 2], ns[all_count - 1][SAMPLES / 2]);
    free(from);
    free(to);
    free(in.at);
}

static void time_all(const char *only) {
    puts("| workload | unit | library | ns a unit | spread | MB/s | memcpy, ns a unit | times the other |");
    puts("|---|---|---|---|---|---|---|---|");
    for (size_t i = 0; i < load_count; i++)
        if (!only || strstr(loads[i].name, only)) time_load(&loads[i]);
}

/* --- main --- */

static int count(const char *library, const char *name, const char *repeat) {
    for (size_t i = 0; i < load_count; i++) {
        if (strcmp(loads[i].name, name)) continue;
        bytes in = loads[i].input();
        const calls *c = strcmp(library, "product") ? &all[all_count - 1] : &all[0];
        printf("%lld\n", (long long)run(&loads[i], c, &in, (uint32_t)strtoul(repeat, NULL, 10), NULL, 0));
        return 0;
    }
    fprintf(stderr, "bench: no %s\n", name);
    return 2;
}

/* bench [--beside LIBRARY.so] list | check | time [PART OF A NAME] | count product|other NAME REPEAT */
int main(int n, char **words) {
    all[0] = product;
    if (n > 2 && !strcmp(words[1], "--beside")) {
        all[1] = calls_of(words[2]);
        all_count = 2;
        words += 2;
        n -= 2;
    }
    if (n == 2 && !strcmp(words[1], "list")) {
        for (size_t i = 0; i < load_count; i++) printf("%s %s %u\n", loads[i].name, loads[i].unit, loads[i].units);
        return 0;
    }
    if (n == 2 && !strcmp(words[1], "check")) return !check();
    if (n >= 2 && !strcmp(words[1], "time")) {
        if (!check()) return 1;
        time_all(n > 2 ? words[2] : NULL);
        return 0;
    }
    if (n == 5 && !strcmp(words[1], "count")) return count(words[2], words[3], words[4]);
    fputs("bench [--beside LIBRARY.so] list | check | time [PART OF A NAME] | count product|other NAME REPEAT\n", stderr);
    return 2;
}
