#include "render.h"
#include <inttypes.h>
#include <stdio.h>
#include <stdlib.h>

void require(uint64_t number, const char *call) {
    if (number == KIPAWNORE_DONE) return;
    fprintf(stderr, "%s is refused by %" PRIu64 "\n", call, number);
    exit(2);
}

kipawnore_voice voice_of(const job *job) {
    kipawnore_answered opened = kipawnore_open(job->configuration);
    require(opened.number, "open");
    return opened.voice;
}

size_t render_frame(const job *job, size_t frame, kipawnore_voice *voice, double out[MOST_FPERIOD]) {
    const kipawnore_configuration *c = &job->configuration;
    kipawnore_drawn drawn = kipawnore_whole_frame(*voice, job->lf0[frame], spectrum_of(job, frame), c->nmcp, taps_of(job, frame), c->nlpf, out,
                                                  MOST_FPERIOD, 0);
    require(drawn.number, "whole frame");
    *voice = drawn.voice;
    return drawn.made;
}
