// Renders the announcement's jobs whole, and again cut, saved and restored; both must be the Rust's samples.
#include "testing.h"
#include <stdio.h>
#include <stdlib.h>

// What a render came to.
typedef struct {
    kipawnore_voice voice;
    size_t samples;
    uint64_t sum;
} render;

static void hear(render *render, const double *samples, size_t count) {
    render->samples += count;
    render->sum = summed(render->sum, samples, count);
}

// A whole frame, in the middle of a longer buffer whose ends stay.
static void whole_frame(render *render, const job *job, size_t frame, double *buffer) {
    const kipawnore_configuration *c = &job->configuration;
    buffer[0] = buffer[c->fperiod + 1] = -7.0;
    kipawnore_drawn drawn = kipawnore_whole_frame(render->voice, job->lf0[frame], spectrum_of(job, frame), c->nmcp, taps_of(job, frame),
                                                  c->nlpf, buffer, c->fperiod + 2, 1);
    ANSWERS(drawn.number, KIPAWNORE_DONE);
    CHECK(drawn.made == c->fperiod && drawn.voice.left == 0);
    CHECK(drawn.voice.meter == render->voice.meter + c->fperiod);
    CHECK(buffer[0] == -7.0 && buffer[c->fperiod + 1] == -7.0);
    render->voice = drawn.voice;
    hear(render, buffer + 1, drawn.made);
}

// Goes on with the voice that was saved, restored into an idle one.
static void restart(render *render) {
    uint8_t records[KIPAWNORE_MOST_BYTES];
    size_t length = saved(&render->voice, records);
    kipawnore_answered answer = kipawnore_restore((kipawnore_voice){ 0 }, records, length);
    ANSWERS(answer.number, KIPAWNORE_DONE);
    CHECK(same_voice(&answer.voice, &render->voice));
    render->voice = answer.voice;
}

// A frame given, and drawn 33 samples at a time; before each draw a restart.
static void cut_frame(render *render, const job *job, size_t frame, double *buffer) {
    enum { PART = 33 };
    const kipawnore_configuration *c = &job->configuration;
    kipawnore_answered given =
        kipawnore_give(render->voice, job->lf0[frame], spectrum_of(job, frame), c->nmcp, taps_of(job, frame), c->nlpf);
    ANSWERS(given.number, KIPAWNORE_DONE);
    CHECK(given.voice.left == c->fperiod && given.voice.meter == render->voice.meter);
    render->voice = given.voice;
    while (render->voice.left > 0) {
        restart(render);
        size_t wanted = render->voice.left < PART ? render->voice.left : PART;
        kipawnore_drawn drawn = kipawnore_draw(render->voice, buffer, PART, 0);
        ANSWERS(drawn.number, KIPAWNORE_DONE);
        CHECK(drawn.made == wanted && drawn.voice.left == render->voice.left - wanted);
        render->voice = drawn.voice;
        hear(render, buffer, drawn.made);
        if (drawn.made != wanted) return;
    }
}

typedef void frame_maker(render *render, const job *job, size_t frame, double *buffer);

// Renders all frames, and holds meter, count and checksum to those of data/jobs.txt.
static void render_job(const job *job, const char *how, frame_maker *make) {
    double *buffer = malloc((job->configuration.fperiod + 2) * sizeof *buffer);
    if (buffer == NULL) give_up("no memory", how);
    render render = { .voice = opened(job->configuration) };
    for (size_t frame = 0; frame < job->frames; frame++) make(&render, job, frame, buffer);
    CHECK(render.samples == job->samples && render.voice.meter == job->samples);
    CHECK(render.sum == job->checksum);
    printf("C: announcement, stage %d, beta %g, %s: %zu samples, checksum %016lx\n", (int)job->configuration.stage, job->configuration.beta,
           how, render.samples, (unsigned long)render.sum);
    free(buffer);
}

void test_announcement(const char *folder) {
    for (size_t which = 0; which < JOBS; which++) {
        job job = read_job(folder, which);
        render_job(&job, "whole frames", whole_frame);
        render_job(&job, "cut, saved and restored", cut_frame);
        free_job(&job);
    }
}
