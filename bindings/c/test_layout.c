// The archive has every field where the header has it: configurations read back from opened voices, and the records of busy voices
// held to their fields, slot by slot in document 01's order.
#include "testing.h"
#include <string.h>

enum { MOST_SLOTS = KIPAWNORE_MOST_BYTES / RECORD };

// The values of a voice's slots, gathered from its fields.
typedef struct {
    uint64_t values[MOST_SLOTS];
    size_t count;
} slots;

static void put(slots *slots, uint64_t value) {
    slots->values[slots->count++] = value;
}

static void put_floats(slots *slots, const double *floats, size_t count) {
    memcpy(slots->values + slots->count, floats, count * sizeof *floats);
    slots->count += count;
}

static void put_configuration(slots *slots, const kipawnore_configuration *c) {
    put(slots, c->nmcp);
    put(slots, c->nlpf);
    put(slots, c->stage);
    put(slots, c->log);
    put(slots, c->rate);
    put_floats(slots, (double[]){ c->alpha, c->beta, c->volume }, 3);
    put(slots, c->fperiod);
    put_floats(slots, (double[]){ c->nodata, c->low, c->high }, 3);
}

static void put_sound(slots *slots, const kipawnore_voice *voice) {
    const size_t nmcp = voice->configuration.nmcp, nlpf = voice->configuration.nlpf;
    const kipawnore_pulse *pulse = &voice->pulse;
    put_floats(slots, (double[]){ pulse->pitch, pulse->counter, pulse->increment, pulse->end }, 4);
    put_floats(slots, voice->line, nlpf);
    put_floats(slots, voice->lpf, nlpf);
    put(slots, voice->random.next);
    put(slots, voice->random.used);
    put_floats(slots, voice->random.queue, 64);
    put_floats(slots, voice->coefficients, nmcp);
    put_floats(slots, voice->increments, nmcp);
    put_floats(slots, voice->targets, nmcp);
}

static void put_filter(slots *slots, const kipawnore_voice *voice) {
    const size_t nmcp = voice->configuration.nmcp;
    if (voice->configuration.stage > 0) {
        put_floats(slots, voice->nonzero.d, voice->configuration.stage * nmcp);
        return;
    }
    put_floats(slots, voice->zero.d11, 6);
    put_floats(slots, voice->zero.d12, 6);
    put_floats(slots, voice->zero.d22, 6);
    put_floats(slots, voice->zero.d21, 6 * nmcp);
}

// Holds the records of a voice to its fields. Gives how many different values there are.
static size_t hold_to_records(const kipawnore_voice *voice) {
    uint8_t records[KIPAWNORE_MOST_BYTES];
    slots slots = { .count = 0 };
    put_configuration(&slots, &voice->configuration);
    put(&slots, voice->meter);
    put(&slots, voice->left);
    put(&slots, voice->first);
    put_sound(&slots, voice);
    put_filter(&slots, voice);
    CHECK(saved(voice, records) == slots.count * RECORD);
    size_t different = 0;
    for (size_t i = 0; i < slots.count; i++) {
        CHECK(word_at(records + i * RECORD) == i);
        CHECK(word_at(records + i * RECORD + VALUE) == slots.values[i]);
        size_t earlier = 0;
        while (slots.values[earlier] != slots.values[i]) earlier++;
        different += earlier == i;
    }
    return different;
}

// Whole numbers and floats that all differ come back from their places.
static void test_configuration(bool log) {
    const kipawnore_configuration c = { .nmcp = 7, .nlpf = 3, .stage = 5, .log = log, .rate = 44100, .alpha = -0.25, .beta = 0.5, .volume = 3.5,
                                        .fperiod = 11, .nodata = -77.0, .low = 1.5, .high = 6.25 };
    kipawnore_voice voice = opened(c), fresh = { .configuration = c, .first = true, .random = { .next = 1, .used = 64 } };
    CHECK(same_voice(&voice, &fresh));
    hold_to_records(&voice);
}

// In the middle of a voiced frame nearly every slot has a value of its own.
static void test_busy_voice(const char *folder, size_t which) {
    job job = read_job(folder, which);
    const kipawnore_configuration *c = &job.configuration;
    kipawnore_voice voice = busy_voice(&job);
    CHECK(voice.meter == c->fperiod + BUSY_DRAWN && voice.left == c->fperiod - BUSY_DRAWN && !voice.first);
    size_t different = hold_to_records(&voice);
    CHECK(different > c->nlpf + 64 + 3 * c->nmcp + c->stage * c->nmcp);
    free_job(&job);
}

void test_layout(const char *folder) {
    test_configuration(false);
    test_configuration(true);
    for (size_t which = 0; which < JOBS; which++) test_busy_voice(folder, which);
}
