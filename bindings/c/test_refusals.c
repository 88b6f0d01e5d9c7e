// Every number that a caller can reach, and that a refused call leaves the voice, the samples' buffer and the records' as they were. 11, the dry
// noise, has no test: of all 2^31 states of the noise none comes near the 4,096 rejected tries that it takes.
#include "testing.h"
#include <math.h>
#include <string.h>

enum { ROOM = 256, MOST = 65 };
static const double FILL = -7.0;
static const uint8_t FILL_BYTE = 0xA5;

// A frame with room for an entry and a tap too many.
typedef struct {
    double lf0, spectrum[MOST], lpf[MOST];
    size_t nspectrum, nlpf;
} frame;

static frame frame_of(const job *job, size_t which) {
    frame made = { .lf0 = job->lf0[which], .nspectrum = job->configuration.nmcp, .nlpf = job->configuration.nlpf };
    memcpy(made.spectrum, spectrum_of(job, which), made.nspectrum * sizeof(double));
    memcpy(made.lpf, taps_of(job, which), made.nlpf * sizeof(double));
    return made;
}

static void refuse_open(kipawnore_configuration configuration) {
    const kipawnore_voice idle = { 0 };
    kipawnore_answered answer = kipawnore_open(configuration);
    ANSWERS(answer.number, KIPAWNORE_LIMIT_BROKEN);
    CHECK(same_voice(&answer.voice, &idle));
}

static void refuse_give(const kipawnore_voice *voice, const frame *f, uint64_t number) {
    kipawnore_answered answer = kipawnore_give(*voice, f->lf0, f->spectrum, f->nspectrum, f->lpf, f->nlpf);
    ANSWERS(answer.number, number);
    CHECK(same_voice(&answer.voice, voice));
}

static void check_drawn(const kipawnore_drawn *drawn, const kipawnore_voice *voice, const double out[ROOM]) {
    CHECK(drawn->made == 0 && same_voice(&drawn->voice, voice));
    for (size_t i = 0; i < ROOM; i++) CHECK(out[i] == FILL);
}

static void refuse_draw(const kipawnore_voice *voice, uint64_t number) {
    double out[ROOM];
    for (size_t i = 0; i < ROOM; i++) out[i] = FILL;
    kipawnore_drawn drawn = kipawnore_draw(*voice, out, ROOM, 0);
    ANSWERS(drawn.number, number);
    check_drawn(&drawn, voice, out);
}

static void refuse_whole_frame(const kipawnore_voice *voice, const frame *f, size_t room, size_t start, uint64_t number) {
    double out[ROOM];
    for (size_t i = 0; i < ROOM; i++) out[i] = FILL;
    kipawnore_drawn drawn = kipawnore_whole_frame(*voice, f->lf0, f->spectrum, f->nspectrum, f->lpf, f->nlpf, out, room, start);
    ANSWERS(drawn.number, number);
    check_drawn(&drawn, voice, out);
}

// What give refuses, whole frame refuses alike.
static void refuse_frame(const kipawnore_voice *voice, frame f, uint64_t number) {
    refuse_give(voice, &f, number);
    refuse_whole_frame(voice, &f, ROOM, 0, number);
}

static void refuse_save(const kipawnore_voice *voice, size_t room, uint64_t number) {
    uint8_t out[KIPAWNORE_MOST_BYTES];
    memset(out, FILL_BYTE, sizeof out);
    kipawnore_saved answer = kipawnore_save(*voice, out, room);
    ANSWERS(answer.number, number);
    CHECK(answer.bytes == 0);
    for (size_t i = 0; i < sizeof out; i++) CHECK(out[i] == FILL_BYTE);
}

static void refuse_restore(const kipawnore_voice *voice, const uint8_t *records, size_t length) {
    kipawnore_answered answer = kipawnore_restore(*voice, records, length);
    ANSWERS(answer.number, KIPAWNORE_RECORDS_WRONG);
    CHECK(same_voice(&answer.voice, voice));
}

// 1, at each end of each limit.
#define REFUSE_OPEN(good, field, value)     \
    do {                                    \
        kipawnore_configuration c = (good); \
        c.field = (value);                  \
        refuse_open(c);                     \
    } while (0)

static void test_limits(kipawnore_configuration good) {
    opened(good);
    REFUSE_OPEN(good, nmcp, 1);
    REFUSE_OPEN(good, nmcp, 65);
    REFUSE_OPEN(good, nlpf, 65);
    REFUSE_OPEN(good, nlpf, SIZE_MAX);
    REFUSE_OPEN(good, stage, 9);
    REFUSE_OPEN(good, rate, 0);
    REFUSE_OPEN(good, rate, 192001);
    REFUSE_OPEN(good, fperiod, 0);
    REFUSE_OPEN(good, fperiod, 4801);
    const double wrong[] = { -21.0, 21.0, NAN, INFINITY, -INFINITY };
    for (size_t i = 0; i < sizeof wrong / sizeof *wrong; i++) {
        REFUSE_OPEN(good, alpha, wrong[i]);
        REFUSE_OPEN(good, beta, wrong[i]);
        REFUSE_OPEN(good, low, wrong[i]);
        REFUSE_OPEN(good, high, wrong[i]);
        if (isfinite(wrong[i])) continue;
        REFUSE_OPEN(good, volume, wrong[i]);
        REFUSE_OPEN(good, nodata, wrong[i]);
    }
    REFUSE_OPEN(good, alpha, 1.0);
    REFUSE_OPEN(good, beta, nextafter(1.0, 2.0));
    REFUSE_OPEN(good, low, nextafter(good.high, 20.0));
}

static void refuse_idle(const kipawnore_voice *voice, frame f) {
    refuse_frame(voice, f, KIPAWNORE_VOICE_IDLE);
    refuse_whole_frame(voice, &f, 0, 0, KIPAWNORE_VOICE_IDLE);
    refuse_draw(voice, KIPAWNORE_VOICE_IDLE);
    refuse_save(voice, KIPAWNORE_MOST_BYTES, KIPAWNORE_VOICE_IDLE);
}

// 2: the voice of a refused open, and voices that a caller has spoilt.
static void test_idle(const kipawnore_voice *busy, frame f) {
    refuse_idle(&(kipawnore_voice){ 0 }, f);
    kipawnore_voice spoilt = *busy;
    spoilt.random.used = 65;
    refuse_idle(&spoilt, f);
    spoilt = *busy;
    spoilt.meter++;
    refuse_idle(&spoilt, f);
    spoilt = *busy;
    spoilt.left = SIZE_MAX;
    refuse_idle(&spoilt, f);
    spoilt = *busy;
    spoilt.configuration.nmcp = SIZE_MAX;
    refuse_idle(&spoilt, f);
    spoilt = *busy;
    spoilt.first = true;
    refuse_idle(&spoilt, f);
}

// 14, 3 and 10, and that 14 comes before 3.
static void test_room(const kipawnore_voice *busy, const kipawnore_voice *between, frame f) {
    const size_t fperiod = between->configuration.fperiod;
    refuse_whole_frame(between, &f, fperiod - 1, 0, KIPAWNORE_BUFFER_SHORT);
    refuse_whole_frame(between, &f, ROOM, ROOM - fperiod + 1, KIPAWNORE_BUFFER_SHORT);
    refuse_whole_frame(between, &f, ROOM, SIZE_MAX, KIPAWNORE_BUFFER_SHORT);
    refuse_whole_frame(busy, &f, 0, 0, KIPAWNORE_BUFFER_SHORT);
    refuse_draw(between, KIPAWNORE_NOTHING_LEFT);
    f.nspectrum++;
    refuse_frame(busy, f, KIPAWNORE_SAMPLES_LEFT);
}

// No refusals: with samples left and no room nothing is drawn; NULL goes with a length of 0.
static void test_nothing(const kipawnore_voice *busy, kipawnore_configuration configuration) {
    double out[ROOM] = { FILL };
    kipawnore_drawn drawn = kipawnore_draw(*busy, out, 1, SIZE_MAX);
    ANSWERS(drawn.number, KIPAWNORE_DONE);
    CHECK(drawn.made == 0 && out[0] == FILL && same_voice(&drawn.voice, busy));
    drawn = kipawnore_draw(*busy, NULL, 0, 0);
    ANSWERS(drawn.number, KIPAWNORE_DONE);
    CHECK(drawn.made == 0 && same_voice(&drawn.voice, busy));
    configuration.nmcp = 2;
    configuration.nlpf = 0;
    drawn = kipawnore_whole_frame(opened(configuration), 5.0, (double[]){ 1.0, 0.5 }, 2, NULL, 0, out, ROOM, 0);
    ANSWERS(drawn.number, KIPAWNORE_DONE);
    CHECK(drawn.made == configuration.fperiod);
    ANSWERS(kipawnore_give(*busy, 5.0, NULL, 0, NULL, 0).number, KIPAWNORE_SAMPLES_LEFT);
    ANSWERS(kipawnore_save(*busy, NULL, 0).number, KIPAWNORE_RECORDS_LONGER);
    ANSWERS(kipawnore_restore(*busy, NULL, 0).number, KIPAWNORE_RECORDS_WRONG);
}

// 4, 5 and 6; each frame has the faults of the numbers after it too.
static void test_frames(const kipawnore_voice *between, const frame *good) {
    frame f = *good;
    f.lf0 = NAN;
    refuse_frame(between, f, KIPAWNORE_NOT_FINITE);
    f.nlpf++;
    refuse_frame(between, f, KIPAWNORE_TAP_COUNT);
    f.nlpf = 0;
    refuse_frame(between, f, KIPAWNORE_TAP_COUNT);
    f.nspectrum--;
    refuse_frame(between, f, KIPAWNORE_SPECTRUM_LENGTH);
    f.nspectrum += 2;
    refuse_frame(between, f, KIPAWNORE_SPECTRUM_LENGTH);
    f.nspectrum = 0;
    refuse_frame(between, f, KIPAWNORE_SPECTRUM_LENGTH);
    f = *good;
    f.spectrum[f.nspectrum - 1] = -INFINITY;
    refuse_frame(between, f, KIPAWNORE_NOT_FINITE);
    f = *good;
    f.lpf[f.nlpf - 1] = NAN;
    refuse_frame(between, f, KIPAWNORE_NOT_FINITE);
}

// The voice with another meter, by way of its records.
static kipawnore_voice with_meter(const kipawnore_voice *voice, uint64_t meter) {
    enum { METER = 12 };
    uint8_t records[KIPAWNORE_MOST_BYTES];
    size_t length = saved(voice, records);
    put_word(records + METER * RECORD + VALUE, meter);
    kipawnore_answered answer = kipawnore_restore(*voice, records, length);
    ANSWERS(answer.number, KIPAWNORE_DONE);
    CHECK(answer.voice.meter == meter);
    return answer.voice;
}

// 7, 8 and 9, of a voice at stage 2 with postfilter; entries that are equal lead to a NaN there.
static void test_pairs(const kipawnore_voice *between, const frame *good) {
    const uint64_t most = INT64_MAX, fperiod = between->configuration.fperiod;
    const kipawnore_voice full = with_meter(between, most - most % fperiod), nearly = with_meter(between, most - most % fperiod - fperiod);
    frame f = *good;
    f.spectrum[2] = f.spectrum[3] = f.spectrum[1];
    refuse_frame(between, f, KIPAWNORE_ARGUMENT_OUTSIDE);
    refuse_frame(&full, f, KIPAWNORE_METER_FULL);
    refuse_frame(&full, *good, KIPAWNORE_METER_FULL);
    kipawnore_answered last = kipawnore_give(nearly, good->lf0, good->spectrum, good->nspectrum, good->lpf, good->nlpf);
    ANSWERS(last.number, KIPAWNORE_DONE);
    f.spectrum[1] = -nextafter(1048576.0, INFINITY);
    refuse_frame(&full, f, KIPAWNORE_ENTRY_BEYOND);
    f.lpf[0] = INFINITY;
    refuse_frame(&full, f, KIPAWNORE_NOT_FINITE);
}

// 12 and 13. The same records undamaged are taken, into an idle voice too.
static void test_records(const kipawnore_voice *busy) {
    enum { STAGE = 2, LOG = 3, ALPHA = 5, LEFT = 13, PITCH = 15 };
    static const struct { size_t slot; uint64_t value; } wrong[] = {
        { STAGE, 9 }, { LOG, 2 }, { ALPHA, 0x3ff0000000000000 }, { LEFT, 1 }, { PITCH, 0x7ff8000000000001 },
    };
    const kipawnore_voice idle = { 0 };
    uint8_t records[KIPAWNORE_MOST_BYTES], damaged[KIPAWNORE_MOST_BYTES];
    const size_t length = saved(busy, records);
    refuse_save(busy, length - 1, KIPAWNORE_RECORDS_LONGER);
    refuse_save(busy, 0, KIPAWNORE_RECORDS_LONGER);
    for (size_t i = 0; i < sizeof wrong / sizeof *wrong; i++) {
        memcpy(damaged, records, length);
        put_word(damaged + wrong[i].slot * RECORD + VALUE, wrong[i].value);
        refuse_restore(busy, damaged, length);
        refuse_restore(&idle, damaged, length);
    }
    memcpy(damaged, records, length);
    put_word(damaged, 1);
    refuse_restore(busy, damaged, length);
    refuse_restore(busy, records, length - 1);
    refuse_restore(busy, records, length - RECORD);
    refuse_restore(busy, records, 0);
    refuse_restore(busy, records, sizeof records);
    kipawnore_answered answer = kipawnore_restore(idle, records, length);
    ANSWERS(answer.number, KIPAWNORE_DONE);
    CHECK(same_voice(&answer.voice, busy));
}

// The voice after the rest of its frame.
static kipawnore_voice drawn_out(const kipawnore_voice *busy) {
    double out[ROOM];
    kipawnore_drawn drawn = kipawnore_draw(*busy, out, ROOM, 0);
    ANSWERS(drawn.number, KIPAWNORE_DONE);
    CHECK(drawn.made == busy->left && drawn.voice.left == 0);
    return drawn.voice;
}

void test_refusals(const char *folder) {
    for (size_t which = 0; which < JOBS; which++) {
        job job = read_job(folder, which);
        const frame good = frame_of(&job, 0);
        const kipawnore_voice busy = busy_voice(&job), between = drawn_out(&busy);
        test_limits(job.configuration);
        test_idle(&busy, good);
        test_room(&busy, &between, good);
        test_nothing(&busy, job.configuration);
        test_frames(&between, &good);
        if (job.configuration.stage > 0 && job.configuration.beta > 0.0) test_pairs(&between, &good);
        test_records(&busy);
        free_job(&job);
    }
}
