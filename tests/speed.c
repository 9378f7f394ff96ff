// Times the proved engine against the plain one, in turns, table by table: calls of a tick, and calls of many ticks; and bytes. The
// times that are told are the least of many rounds, and the ratio is the middle one of theirs: a round times both engines, one right after
// the other, so that what else the machine does touches them alike. Each line that misses what is held against it is marked.
#define _POSIX_C_SOURCE 199309L
#include <inttypes.h>
#include <stdint.h>
#include <stdio.h>
#include <stdlib.h>
#include <time.h>

uint64_t proved_ticks(uint32_t ticks, uint32_t table);
uint64_t proved_calls(uint32_t calls, uint32_t ticks, uint32_t table);
uint64_t twin_ticks(uint32_t ticks, uint32_t table);
uint64_t twin_calls(uint32_t calls, uint32_t ticks, uint32_t table);
uint64_t proved_bytes(uint32_t times, uint32_t kind, uint32_t table);
uint64_t twin_bytes(uint32_t times, uint32_t kind, uint32_t table);

enum { MILLION = 1000000, WAKE = 20, TABLES = 11, SINGLES = 5, KINDS = 2, ROUNDS = 51 };

// How many calls of a million are timed at once, so that the clock has something to measure, and how many times faster than the plain
// loop a call must be (0: no more is asked than the same steps).
static const struct table {
    const char *name;
    uint32_t calls;
    double least;
} tables[TABLES] = {
    {"steady RAT", 1000, 50000},       {"large numbers", 4, 0},      {"PAS 99", 1000, 25000}, {"all functions", 1000, 0},
    {"visits of 18 ticks", 1, 4},      {"large volume", 60, 50000},  {"stopped", 1000, 50000}, {"U", 1000, 50000},
    {"visits of 1,800 ticks", 20, 4},  {"short ramp", 1, 4},         {"jumps", 1, 2},
};

// Eight bytes, and how many times as long as the plain engine they may take.
static const struct kind {
    const char *name;
    double most;
} kinds[KINDS] = {{"a packet", 1}, {"two lines", 1.1}};

static int missed;

static double nanoseconds(void) {
    struct timespec t;
    clock_gettime(CLOCK_MONOTONIC, &t);
    return 1e9 * (double)t.tv_sec + (double)t.tv_nsec;
}

typedef uint64_t Calls(uint32_t calls, uint32_t ticks, uint32_t table);

// A call of one tick, as the calls of many are timed.
static uint64_t proved_singles(uint32_t calls, uint32_t ticks, uint32_t table) {
    (void)ticks;
    return proved_ticks(calls, table);
}

static uint64_t twin_singles(uint32_t calls, uint32_t ticks, uint32_t table) {
    (void)ticks;
    return twin_ticks(calls, table);
}

// What a call takes; what no call takes, making the table, is taken off.
static double per_call(Calls *run, uint32_t calls, uint32_t ticks, uint32_t table) {
    double begun = nanoseconds();
    run(0, ticks, table);
    double started = nanoseconds();
    run(calls, ticks, table);
    return (nanoseconds() - started - (started - begun)) / calls;
}

static int by_size(const void *a, const void *b) {
    double x = *(const double *)a, y = *(const double *)b;
    return (x > y) - (x < y);
}

// Two engines in turns: the least time of each, and the middle one of the rounds' ratios, the first to the other.
struct measured {
    double best[2], ratio;
};

static struct measured measure(Calls *one, uint32_t one_calls, Calls *other, uint32_t other_calls, uint32_t ticks[2], uint32_t table) {
    struct measured m = {{0, 0}, 0};
    double ratios[ROUNDS];
    for (int round = 0; round < ROUNDS; round++) {
        double took[2] = {per_call(one, one_calls, ticks[0], table), per_call(other, other_calls, ticks[1], table)};
        for (int e = 0; e < 2; e++)
            if (round == 0 || took[e] < m.best[e])
                m.best[e] = took[e];
        ratios[round] = took[0] / took[1];
    }
    qsort(ratios, ROUNDS, sizeof *ratios, by_size);
    m.ratio = ratios[ROUNDS / 2];
    return m;
}

static void told(const char *name, struct measured m, double ratio, int fine) {
    printf("%-22s %12.0f %12.0f %10.2f%s\n", name, m.best[0], m.best[1], ratio, fine ? "" : "  missed");
    missed |= !fine;
}

// Both must do the same work for their times to be compared.
static int agree(void) {
    static const uint32_t sizes[] = {0, 1, 2, 7, 17, 18, 19, 20, 999, 1000, 1001, 2000, 2001, 10007, 100003, MILLION};
    for (uint32_t t = 0; t < TABLES; t++)
        for (unsigned k = 0; k < sizeof sizes / sizeof *sizes; k++) {
            uint32_t calls = sizes[k] < 10000 ? 100 : 2;
            uint64_t ours = proved_calls(calls, sizes[k], t), theirs = twin_calls(calls, sizes[k], t);
            if (ours != theirs) {
                printf("%s, calls of %" PRIu32 ": %" PRIu64 " steps, and the plain engine gives %" PRIu64 "\n", tables[t].name, sizes[k],
                       ours, theirs);
                return 0;
            }
        }
    for (uint32_t kind = 0; kind < KINDS; kind++)
        if (proved_bytes(1000, kind, 0) != twin_bytes(1000, kind, 0)) {
            printf("%s: the two do not answer as many bytes\n", kinds[kind].name);
            return 0;
        }
    return 1;
}

int main(void) {
    if (!agree())
        return 2;
    struct measured m;
    puts("a call of tick; each tests the state first; proved to plain");
    printf("%-22s %12s %12s %10s\n", "ns a call", "proved", "plain", "ratio");
    for (uint32_t t = 0; t < SINGLES; t++) {
        m = measure(proved_singles, 2000, twin_singles, 2000, (uint32_t[2]){1, 1}, t);
        told(tables[t].name, m, m.ratio, m.ratio <= 1);
    }
    puts("\neight bytes, one a call, with their answers: the query DIA in Safe mode, and twice in Basic mode; proved to plain");
    for (uint32_t kind = 0; kind < KINDS; kind++) {
        m = measure(proved_bytes, 500, twin_bytes, 500, (uint32_t[2]){kind, kind}, 0);
        told(kinds[kind].name, m, m.ratio, m.ratio <= kinds[kind].most);
    }
    puts("\na call of ticks(1,000,000), and a plain loop of as many after one test; how many times faster");
    printf("%-22s %12s %12s %10s\n", "ns a call", "proved", "plain", "times");
    for (uint32_t t = 0; t < TABLES; t++) {
        m = measure(proved_calls, tables[t].calls, twin_calls, 1, (uint32_t[2]){MILLION, MILLION}, t);
        told(tables[t].name, m, 1 / m.ratio, tables[t].least * m.ratio <= 1);
    }
    puts("\na call of ticks(20), and a plain loop of twenty after one test; how many times faster");
    for (uint32_t t = 0; t < TABLES; t++) {
        m = measure(proved_calls, 2000, twin_calls, 2000, (uint32_t[2]){WAKE, WAKE}, t);
        told(tables[t].name, m, 1 / m.ratio, 1.5 * m.ratio <= 1);
    }
    puts("\na call of ticks(1), and one of tick, both proved; how many times faster");
    printf("%-22s %12s %12s %10s\n", "ns a call", "ticks(1)", "tick", "times");
    for (uint32_t t = 0; t < TABLES; t++) {
        m = measure(proved_calls, 2000, proved_singles, 2000, (uint32_t[2]){1, 1}, t);
        told(tables[t].name, m, 1 / m.ratio, m.ratio <= 1.02);
    }
    return missed;
}
