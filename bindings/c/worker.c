// A worker: renders a job of the announcement into the file `samples` (64-bit floats) of a folder, frame by frame, and after each frame puts the
// voice and the frames done into the file `state`. Ended at any moment and started again, it goes on from the last save: no sample is lost,
// none is made or metered twice.
#include "durable.h"
#include "render.h"
#include <inttypes.h>
#include <stdio.h>
#include <stdlib.h>
#include <string.h>

// The state: the count of frames done, a word, then the voice's records, of which the first twelve are its configuration.
enum { COUNT = 8, CONFIGURATION = 12 * 16, STATE = COUNT + KIPAWNORE_MOST_BYTES };

typedef struct {
    job job;
    int folder, samples;
    kipawnore_voice voice;
    uint64_t done;
} worker;

// Writes the state of the job into a buffer, and gives its length. The count goes as this processor has it.
static size_t put_state(const worker *worker, uint8_t state[STATE]) {
    memcpy(state, &worker->done, COUNT);
    kipawnore_saved saved = kipawnore_save(worker->voice, state + COUNT, STATE - COUNT);
    require(saved.number, "save");
    return COUNT + saved.bytes;
}

// Goes on from the last save, if there is one. A state that cannot be used ends the worker: to begin afresh would be to bill twice.
static void resume(worker *worker) {
    uint8_t fresh[STATE], state[STATE];
    worker->voice = voice_of(&worker->job);
    worker->done = 0;
    put_state(worker, fresh);
    size_t length = read_file(worker->folder, "state", state, STATE);
    if (length > 0) {
        if (length < COUNT + CONFIGURATION || memcmp(fresh + COUNT, state + COUNT, CONFIGURATION) != 0) give_up("of another job", "state");
        kipawnore_answered restored = kipawnore_restore(worker->voice, state + COUNT, length - COUNT);
        require(restored.number, "restore");
        worker->voice = restored.voice;
        memcpy(&worker->done, state, COUNT);
    }
    // Samples past the save were never metered: they are made again.
    cut_file(worker->samples, "samples", worker->voice.meter * sizeof(double));
    printf("%s at sample %" PRIu64 "\n", length > 0 ? "resumes" : "begins", worker->voice.meter);
    fflush(stdout);
}

// Renders the next frame. Its samples are on the disk before the save that counts them.
static void next_frame(worker *worker) {
    double out[MOST_FPERIOD];
    size_t made = render_frame(&worker->job, worker->done, &worker->voice, out);
    worker->done++;
    append(worker->samples, "samples", out, made * sizeof *out);
    uint8_t state[STATE];
    replace_file(worker->folder, "state", state, put_state(worker, state));
}

int main(int count, char **words) {
    if (count != 4) give_up("usage: worker DATA JOB FOLDER", words[0]);
    worker worker = { .job = read_job(words[1], strtoul(words[2], NULL, 10)), .folder = open_folder(words[3]) };
    worker.samples = open_appended(worker.folder, "samples");
    resume(&worker);
    while (worker.done < worker.job.frames) next_frame(&worker);
    printf("done: meter %" PRIu64 "\n", worker.voice.meter);
    free_job(&worker.job);
    return 0;
}
