/* SPDX-License-Identifier: Apache-2.0 */
/* Gates that ask by the library as fast as they are answered, a thread each.

       rate ADDRESS FOLDER touch|enquiry GATES REQUESTS SECONDS FIRST

   It asks what bench/load.c asks, gate by gate, and prints the same line: the requests answered, the seconds, the
   answers a second, and of an answer's time the median and the 99th percentile in microseconds. The gates' files are
   made in FOLDER. */
#define _POSIX_C_SOURCE 200809L
#include <pthread.h>
#include <stdio.h>
#include <stdlib.h>
#include <string.h>
#include <time.h>

#include "../bovtrila_gate.h"

enum { FIRST_MOMENT = 1736121600, HALF_HOUR = 1800, CYCLE = 7, MOST_GATES = 64 };

struct asking {
    pthread_t thread;
    bovtrila_gate *gate;
    uint32_t card, number, count, most;
    uint32_t *times;
};

static int asks_touches;
static uint64_t deadline;
static pthread_barrier_t ready, begun;

static uint64_t now(void)
{
    struct timespec time;

    clock_gettime(CLOCK_MONOTONIC, &time);
    return (uint64_t)time.tv_sec * 1000000000u + (uint64_t)time.tv_nsec;
}

static void want(int holds, const char *what)
{
    if (!holds) {
        fprintf(stderr, "rate: %s\n", what);
        exit(1);
    }
}

/* The next touch of a gate's card: its issue, and then over and over a top-up and three journeys from station 2 to 1.
   */
static enum bovtrila_result touch(struct asking *one)
{
    uint32_t number = ++one->number, moment = FIRST_MOMENT + HALF_HOUR * number, step = (number + CYCLE - 2) % CYCLE;

    if (number == 1)
        return bovtrila_issue(one->gate, one->card, moment).result;
    if (step == 0)
        return bovtrila_top_up(one->gate, one->card, 1000, moment).result;
    return step % 2 == 1 ? bovtrila_touch_in(one->gate, one->card, 2, moment).result
                         : bovtrila_touch_out(one->gate, one->card, 1, moment).result;
}

static void ask(struct asking *one)
{
    enum bovtrila_result result = asks_touches ? touch(one) : bovtrila_enquire(one->gate, one->card).result;

    want(result == BOVTRILA_ACCEPTED || result == BOVTRILA_REFUSED || result == BOVTRILA_SHOWN,
         bovtrila_result_text(result));
}

static void *run(void *of)
{
    struct asking *one = of;

    ask(one);
    pthread_barrier_wait(&ready);
    pthread_barrier_wait(&begun);
    for (uint64_t before = now(); one->count < one->most && before < deadline;) {
        ask(one);
        uint64_t after = now();
        one->times[one->count++] = (uint32_t)(after - before);
        before = after;
    }
    return NULL;
}

static int by_size(const void *one, const void *other)
{
    uint32_t left = *(const uint32_t *)one, right = *(const uint32_t *)other;

    return (left > right) - (left < right);
}

static void report(const struct asking *all, size_t gates, double seconds)
{
    size_t total = 0, place = 0;

    for (size_t i = 0; i < gates; i++)
        total += all[i].count;
    uint32_t *times = calloc(total + 1, sizeof *times);
    want(times != NULL, "no memory");
    for (size_t i = 0; i < gates; i++) {
        memcpy(times + place, all[i].times, all[i].count * sizeof *times);
        place += all[i].count;
    }
    qsort(times, total, sizeof *times, by_size);
    printf("%lu %.3f %.1f %.1f %.1f\n", (unsigned long)total, seconds, (double)total / seconds,
           times[total / 2] / 1e3, times[total * 99 / 100] / 1e3);
    free(times);
}

/* Makes a gate's file and opens it. */
static void begin(struct asking *one, const char *folder, const char *const *addresses, uint16_t number, uint32_t most)
{
    char path[512];
    bovtrila_options options = {0};

    snprintf(path, sizeof path, "%s/gate-%u", folder, number);
    want(bovtrila_create(path, number, asks_touches ? most + 1 : 1).cause == BOVTRILA_FILE_OK,
         "a gate's file can't be made");
    options.size = sizeof options;
    options.file = path;
    options.gate = number;
    options.addresses = addresses;
    options.address_count = 1;
    options.limit = options.patience = 60000;
    want(bovtrila_open(&options, &one->gate).cause == BOVTRILA_FILE_OK, "a gate can't be opened");
    one->card = number;
    one->most = most;
    one->times = malloc((most + 1) * sizeof *one->times);
    want(one->times != NULL, "no memory");
}

int main(int argc, char **argv)
{
    static struct asking all[MOST_GATES];

    want(argc == 8, "ADDRESS FOLDER touch|enquiry GATES REQUESTS SECONDS FIRST");
    const char *addresses[] = {argv[1]};
    size_t gates = (size_t)atol(argv[4]);
    asks_touches = strcmp(argv[3], "touch") == 0;
    want(gates >= 1 && gates <= MOST_GATES, "1 to 64 gates");
    want(pthread_barrier_init(&ready, NULL, (unsigned)gates + 1) == 0, "no barrier");
    want(pthread_barrier_init(&begun, NULL, (unsigned)gates + 1) == 0, "no barrier");
    for (size_t i = 0; i < gates; i++) {
        begin(&all[i], argv[2], addresses, (uint16_t)(atol(argv[7]) + (long)i),
              (uint32_t)(atol(argv[5]) / (long)gates));
        want(pthread_create(&all[i].thread, NULL, run, &all[i]) == 0, "no thread");
    }
    pthread_barrier_wait(&ready);
    uint64_t start = now();
    deadline = start + (uint64_t)(atof(argv[6]) * 1e9);
    pthread_barrier_wait(&begun);
    for (size_t i = 0; i < gates; i++)
        pthread_join(all[i].thread, NULL);
    report(all, gates, (double)(now() - start) / 1e9);
    for (size_t i = 0; i < gates; i++) {
        bovtrila_close(all[i].gate);
        free(all[i].times);
    }
    return 0;
}
