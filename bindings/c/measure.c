// What a frame of the announcement takes, voice by value, and what it takes where the voice lives as records in a lent buffer: restored, rendered
// by, saved again. Best and median of interleaved rounds; how deep the stack is used. The word is the folder of the data.
#include "job.h"
#include <pthread.h>
#include <stdio.h>
#include <stdlib.h>
#include <string.h>
#include <time.h>

enum { ROUNDS = 31, STACK = 1 << 20, MOST_FPERIOD = 4800 };
static const uint8_t UNTOUCHED = 0xA5;

static double out[MOST_FPERIOD];

static double microseconds(void) {
    struct timespec time;
    clock_gettime(CLOCK_MONOTONIC, &time);
    return (double)time.tv_sec * 1e6 + (double)time.tv_nsec / 1e3;
}

static void require(uint64_t number) {
    if (number != KIPAWNORE_DONE) give_up("a call is refused", "measure");
}

static kipawnore_voice rendered(kipawnore_voice voice, const job *job, size_t frame) {
    const kipawnore_configuration *c = &job->configuration;
    kipawnore_drawn drawn =
        kipawnore_whole_frame(voice, job->lf0[frame], spectrum_of(job, frame), c->nmcp, taps_of(job, frame), c->nlpf, out, MOST_FPERIOD, 0);
    require(drawn.number);
    return drawn.voice;
}

static kipawnore_voice fresh(const job *job) {
    kipawnore_answered opened = kipawnore_open(job->configuration);
    require(opened.number);
    return opened.voice;
}

static uint64_t by_value(const job *job) {
    uint64_t sum = 0;
    kipawnore_voice voice = fresh(job);
    for (size_t frame = 0; frame < job->frames; frame++) {
        voice = rendered(voice, job, frame);
        sum = summed(sum, out, job->configuration.fperiod);
    }
    return sum;
}

static uint64_t by_records(const job *job) {
    static const kipawnore_voice idle;
    static uint8_t records[KIPAWNORE_MOST_BYTES];
    uint64_t sum = 0;
    kipawnore_saved saved = kipawnore_save(fresh(job), records, sizeof records);
    for (size_t frame = 0; frame < job->frames; frame++) {
        require(saved.number);
        kipawnore_answered restored = kipawnore_restore(idle, records, saved.bytes);
        require(restored.number);
        saved = kipawnore_save(rendered(restored.voice, job, frame), records, sizeof records);
        sum = summed(sum, out, job->configuration.fperiod);
    }
    return sum;
}

static int less(const void *one, const void *other) {
    const double a = *(const double *)one, b = *(const double *)other;
    return (a > b) - (a < b);
}

static void print_times(const char *name, double times[ROUNDS]) {
    qsort(times, ROUNDS, sizeof *times, less);
    printf("    %-10s best %.2f, median %.2f\n", name, times[0], times[ROUNDS / 2]);
}

static void time_job(const job *job) {
    double values[ROUNDS], records[ROUNDS];
    for (size_t round = 0; round < ROUNDS; round++) {
        double start = microseconds();
        uint64_t sum = by_value(job);
        double middle = microseconds();
        if (by_records(job) != job->checksum || sum != job->checksum) give_up("other samples", "measure");
        values[round] = (middle - start) / (double)job->frames;
        records[round] = (microseconds() - middle) / (double)job->frames;
    }
    printf("stage %d, beta %g, us a frame of %zu samples:\n", (int)job->configuration.stage, job->configuration.beta, job->configuration.fperiod);
    print_times("by value", values);
    print_times("records", records);
}

static void *render_on_a_thread(void *of) {
    by_records(of);
    return NULL;
}

// How much of a thread's stack a job touches, the caller's own variables too.
static void measure_stack(job *job) {
    pthread_attr_t attributes;
    pthread_t thread;
    uint8_t *stack = aligned_alloc(4096, STACK);
    if (stack == NULL) give_up("no memory", "measure");
    memset(stack, UNTOUCHED, STACK);
    if (pthread_attr_init(&attributes) != 0 || pthread_attr_setstack(&attributes, stack, STACK) != 0) give_up("no stack", "measure");
    if (pthread_create(&thread, &attributes, render_on_a_thread, job) != 0 || pthread_join(thread, NULL) != 0) give_up("no thread", "measure");
    size_t deepest = 0;
    while (deepest < STACK && stack[deepest] == UNTOUCHED) deepest++;
    printf("    stack: %zu KiB\n", (STACK - deepest) / 1024);
    free(stack);
}

int main(int count, char **words) {
    if (count != 2) give_up("usage: measure DATA", words[0]);
    for (size_t which = 0; which < JOBS; which += 2) {
        job job = read_job(words[1], which);
        time_job(&job);
        measure_stack(&job);
        free_job(&job);
    }
    return 0;
}
