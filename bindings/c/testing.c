// Runs the tests; the word is the folder of the data. The status is 1 where a check failed or a number did not come up.
#include "testing.h"
#include <inttypes.h>
#include <stdio.h>
#include <string.h>

enum { NUMBERS = 24, VOICE_WORDS = sizeof(kipawnore_voice) / 8 };

static size_t checks, failed;
static size_t seen[NUMBERS];

void check(bool holds, const char *what, const char *file, int line) {
    checks++;
    if (holds) return;
    failed++;
    fprintf(stderr, "%s:%d: does not hold: %s\n", file, line, what);
}

void answers(uint64_t number, uint64_t wanted, const char *what, const char *file, int line) {
    check(number == wanted, what, file, line);
    if (number != wanted) fprintf(stderr, "    it is %" PRIu64 ", wanted is %" PRIu64 "\n", number, wanted);
    if (number < NUMBERS) seen[number]++;
}

// The words of a voice: every NaN in the form that save gives it, the flags without the padding behind them, `next` as it is.
static void words_of(const kipawnore_voice *voice, uint64_t words[VOICE_WORDS]) {
    memcpy(words, voice, sizeof *voice);
    for (size_t i = 0; i < VOICE_WORDS; i++) words[i] = one_nan(words[i]);
    words[offsetof(kipawnore_voice, configuration.log) / 8] = voice->configuration.log;
    words[offsetof(kipawnore_voice, first) / 8] = voice->first;
    words[offsetof(kipawnore_voice, random.next) / 8] = voice->random.next;
}

bool same_voice(const kipawnore_voice *one, const kipawnore_voice *other) {
    uint64_t ones[VOICE_WORDS], others[VOICE_WORDS];
    words_of(one, ones);
    words_of(other, others);
    return memcmp(ones, others, sizeof ones) == 0;
}

kipawnore_voice opened(kipawnore_configuration configuration) {
    kipawnore_answered answer = kipawnore_open(configuration);
    ANSWERS(answer.number, KIPAWNORE_DONE);
    return answer.voice;
}

// The first voiced frame from this one on that another follows.
static size_t voiced_from(const job *job, size_t frame) {
    while (frame + 2 < job->frames && job->lf0[frame] == job->configuration.nodata) frame++;
    return frame;
}

kipawnore_voice busy_voice(const job *job) {
    const kipawnore_configuration *c = &job->configuration;
    const size_t one = voiced_from(job, 0), two = one + 1;
    double out[4800];
    kipawnore_drawn drawn = kipawnore_whole_frame(opened(*c), job->lf0[one], spectrum_of(job, one), c->nmcp, taps_of(job, one), c->nlpf, out,
                                                  c->fperiod, 0);
    ANSWERS(drawn.number, KIPAWNORE_DONE);
    kipawnore_answered given = kipawnore_give(drawn.voice, job->lf0[two], spectrum_of(job, two), c->nmcp, taps_of(job, two), c->nlpf);
    ANSWERS(given.number, KIPAWNORE_DONE);
    drawn = kipawnore_draw(given.voice, out, BUSY_DRAWN, 0);
    ANSWERS(drawn.number, KIPAWNORE_DONE);
    CHECK(drawn.made == BUSY_DRAWN);
    return drawn.voice;
}

size_t saved(const kipawnore_voice *voice, uint8_t records[KIPAWNORE_MOST_BYTES]) {
    kipawnore_saved answer = kipawnore_save(*voice, records, KIPAWNORE_MOST_BYTES);
    ANSWERS(answer.number, KIPAWNORE_DONE);
    return answer.bytes;
}

uint64_t word_at(const uint8_t *bytes) {
    uint64_t word = 0;
    for (int i = 8; i-- > 0;) word = word << 8 | bytes[i];
    return word;
}

void put_word(uint8_t *bytes, uint64_t word) {
    for (int i = 0; i < 8; i++) bytes[i] = (uint8_t)(word >> 8 * i);
}

// Whether a call may give a number: no input leads to that of the dry noise.
static bool given(size_t number) {
    return (number <= KIPAWNORE_BUFFER_SHORT && number != KIPAWNORE_NOISE_DRY) || number >= KIPAWNORE_NOT_SOUND_FILE;
}

// Every number that may be given came up, and no other.
static void check_numbers(void) {
    for (size_t number = 0; number < NUMBERS; number++) {
        if (given(number) == (seen[number] > 0)) continue;
        failed++;
        fprintf(stderr, "%zu %s\n", number, given(number) ? "did not come up" : "came up");
    }
}

int main(int count, char **words) {
    if (count != 2) give_up("usage: test DATA", words[0]);
    test_layout(words[1]);
    test_refusals(words[1]);
    test_announcement(words[1]);
    test_sound();
    check_numbers();
    printf("C: %zu checks, %zu failed; calls by number:", checks, failed);
    for (size_t number = 0; number < NUMBERS; number++) {
        if (given(number)) printf(" %zu:%zu", number, seen[number]);
    }
    printf("\n");
    return failed > 0;
}
