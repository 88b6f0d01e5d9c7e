// The crash test: has a worker do a job uninterrupted, then again and again, ended by SIGKILL at random moments and started anew, until it was ended
// often enough. Every job must come to the very bytes and the very meter of the first. The words: the worker's language and program, the
// data, a folder for the jobs, the kills wanted, a seed. The status is 1 where a job came to something else, 2 where one could not be done.
#include "job.h"
#include <errno.h>
#include <fcntl.h>
#include <inttypes.h>
#include <signal.h>
#include <stdio.h>
#include <stdlib.h>
#include <string.h>
#include <sys/stat.h>
#include <sys/wait.h>
#include <time.h>
#include <unistd.h>

enum { PATH = 4096, SAID = 256, JOB = 0 };
// A state begins with a word; in the records after it the meter is the value of slot 12.
enum { METER_AT = 8 + 12 * 16 + 8, NANOSECONDS = 1000000000 };

// One start of the worker, as it ended.
typedef struct {
    bool killed;
    char said[SAID];
} start;

// What came up in all jobs. More starts than so many for each kill wanted, and the worker does not get on.
enum { MOST_STARTS = 20 };
typedef struct {
    unsigned starts, kills, early, resumes, begun_again, ahead, torn, jobs;
} tally;

static const char *worker, *data;
static uint64_t seed;

static _Noreturn void end(int status, const char *what, const char *name) {
    fprintf(stderr, "crash test: %s: %s\n", name, what);
    exit(status);
}

// The next random number below a bound.
static uint64_t below(uint64_t bound) {
    seed = seed * 6364136223846793005 + 1442695040888963407;
    return (seed >> 33) % bound;
}

static uint64_t now(void) {
    struct timespec time;
    clock_gettime(CLOCK_MONOTONIC, &time);
    return (uint64_t)time.tv_sec * NANOSECONDS + (uint64_t)time.tv_nsec;
}

static void path_in(const char *folder, const char *name, char path[PATH]) {
    int length = snprintf(path, PATH, "%s/%s", folder, name);
    if (length < 0 || length >= PATH) end(2, "too long a path", name);
}

// An empty folder for a job.
static void clear(const char *folder) {
    static const char *names[] = { "samples", "state", "state.tmp" };
    char path[PATH];
    if (mkdir(folder, 0755) != 0 && errno != EEXIST) end(2, strerror(errno), folder);
    for (size_t i = 0; i < sizeof names / sizeof *names; i++) {
        path_in(folder, names[i], path);
        if (unlink(path) != 0 && errno != ENOENT) end(2, strerror(errno), path);
    }
}

// Starts the worker, which says what it does through the pipe.
static pid_t begin(const char *folder, int said[2]) {
    char job[16];
    snprintf(job, sizeof job, "%d", JOB);
    if (pipe(said) != 0) end(2, strerror(errno), "pipe");
    pid_t child = fork();
    if (child < 0) end(2, strerror(errno), "fork");
    if (child == 0) {
        dup2(said[1], STDOUT_FILENO);
        close(said[0]);
        close(said[1]);
        execl(worker, worker, data, job, folder, (char *)NULL);
        _exit(127);
    }
    close(said[1]);
    return child;
}

// Runs the worker until it ends, or until it is killed after so many nanoseconds (0: never).
static start run(const char *folder, uint64_t after) {
    start ran = { .killed = false };
    int said[2], status;
    pid_t child = begin(folder, said);
    if (after > 0) {
        nanosleep(&(struct timespec){ .tv_sec = (time_t)(after / NANOSECONDS), .tv_nsec = (long)(after % NANOSECONDS) }, NULL);
        kill(child, SIGKILL);
    }
    if (waitpid(child, &status, 0) != child) end(2, strerror(errno), worker);
    ran.killed = WIFSIGNALED(status) && WTERMSIG(status) == SIGKILL;
    if (!ran.killed && !(WIFEXITED(status) && WEXITSTATUS(status) == 0)) end(1, "does not end as it should", worker);
    ssize_t length = read(said[0], ran.said, SAID - 1);
    ran.said[length > 0 ? length : 0] = 0;
    close(said[0]);
    return ran;
}

// The bytes of a file of a folder; none where it is not there.
static uint8_t *read_all(const char *folder, const char *name, size_t *length) {
    char path[PATH];
    struct stat found;
    path_in(folder, name, path);
    *length = 0;
    int file = open(path, O_RDONLY);
    if (file < 0 && errno == ENOENT) return NULL;
    if (file < 0 || fstat(file, &found) != 0) end(2, strerror(errno), path);
    uint8_t *bytes = malloc((size_t)found.st_size + 1);
    ssize_t count = bytes == NULL ? -1 : read(file, bytes, (size_t)found.st_size);
    if (count != found.st_size) end(2, "cannot be read", path);
    close(file);
    *length = (size_t)count;
    return bytes;
}

// The meter of a folder's last save, 0 where there is none.
static uint64_t meter_of(const char *folder) {
    size_t length;
    uint64_t meter = 0;
    uint8_t *state = read_all(folder, "state", &length);
    if (state != NULL && length < METER_AT + 8) end(1, "is torn", "state");
    if (state != NULL) memcpy(&meter, state + METER_AT, sizeof meter);
    free(state);
    return meter;
}

static bool same_file(const char *one, const char *other, const char *name) {
    size_t length, other_length;
    uint8_t *bytes = read_all(one, name, &length), *other_bytes = read_all(other, name, &other_length);
    bool same = bytes != NULL && other_bytes != NULL && length == other_length && memcmp(bytes, other_bytes, length) == 0;
    free(bytes);
    free(other_bytes);
    return same;
}

// What a kill left behind: samples past the last save, a save that was not renamed yet.
static void look(const char *folder, tally *tally) {
    char path[PATH];
    struct stat found;
    path_in(folder, "samples", path);
    tally->ahead += stat(path, &found) == 0 && (uint64_t)found.st_size > meter_of(folder) * sizeof(double);
    path_in(folder, "state.tmp", path);
    tally->torn += stat(path, &found) == 0;
}

// Holds what the worker said at its start to the save that it found. False where it was killed before it said anything.
static bool began(const start *start, uint64_t saved, bool anew, tally *tally) {
    uint64_t from;
    char how[16];
    if (sscanf(start->said, "%15s at sample %" SCNu64, how, &from) != 2) return false;
    if (from != saved) end(1, "does not go on from the last save", worker);
    tally->resumes += strcmp(how, "resumes") == 0;
    tally->begun_again += anew && strcmp(how, "begins") == 0;
    return true;
}

// The meter that the worker said at its end.
static uint64_t meter_said(const start *start) {
    uint64_t meter = 0;
    const char *done = strstr(start->said, "done: ");
    if (done == NULL || sscanf(done, "done: meter %" SCNu64, &meter) != 1) end(1, "does not say its meter", worker);
    return meter;
}

static bool enough(const tally *tally, unsigned wanted) {
    return tally->kills >= wanted && tally->resumes >= wanted;
}

// Does a job that is killed until there were enough kills and resumes in all.
static void interrupted(const char *folder, unsigned wanted, uint64_t longest, tally *tally) {
    start last = { .killed = true };
    clear(folder);
    for (bool anew = false; last.killed; anew = true) {
        uint64_t saved = meter_of(folder);
        if (tally->starts++ > MOST_STARTS * wanted) end(2, "does not get on", worker);
        last = run(folder, enough(tally, wanted) ? 0 : 1 + below(longest));
        bool at_work = began(&last, saved, anew, tally);
        if (meter_of(folder) < saved) end(1, "goes back behind its last save", worker);
        tally->kills += last.killed && at_work;
        tally->early += last.killed && !at_work;
        if (last.killed) look(folder, tally);
    }
    if (meter_said(&last) != meter_of(folder)) end(1, "says another meter than it saved", worker);
    tally->jobs++;
}

// Ends the test where a job did not come to what the uninterrupted one did: the samples, the meter, the whole state.
static void compare(const char *whole, const char *cut) {
    if (!same_file(whole, cut, "samples")) end(1, "the samples differ", cut);
    if (meter_of(whole) != meter_of(cut)) end(1, "the meters differ", cut);
    if (!same_file(whole, cut, "state")) end(1, "the states differ", cut);
}

static uint64_t larger(uint64_t one, uint64_t other) {
    return one > other ? one : other;
}

// The longest time before a kill: a fiftieth of the job, held between 20 and 100 ms; but at least a two-hundredth, so that some frames are done on a
// slow disk too.
static uint64_t longest_of(uint64_t taken) {
    const uint64_t least = NANOSECONDS / 50, most = NANOSECONDS / 10, part = taken / 50;
    return larger(part < most ? part : most, larger(taken / 200, least));
}

// The uninterrupted job, whose samples must be those of the Rust. Gives the time that it took.
static uint64_t uninterrupted(const char *folder) {
    clear(folder);
    uint64_t from = now();
    start only = run(folder, 0);
    uint64_t taken = now() - from;
    job job = read_job(data, JOB);
    size_t length;
    uint8_t *samples = read_all(folder, "samples", &length);
    if (length != job.samples * sizeof(double)) end(1, "not as many samples as the Rust makes", folder);
    if (summed(0, (double *)(void *)samples, job.samples) != job.checksum) end(1, "not the Rust's samples", folder);
    if (meter_of(folder) != job.samples || meter_said(&only) != job.samples) end(1, "the meter is not the count of samples", folder);
    free(samples);
    free_job(&job);
    return taken;
}

static void print_tally(const char *language, const tally *tally, uint64_t meter) {
    printf("crash test (%s): after a kill there were samples past the save %u times, a save not yet in place %u times, no save yet %u times; "
           "%u kills more, before the worker had begun, are not counted\n",
           language, tally->ahead, tally->torn, tally->begun_again, tally->early);
    printf("crash test (%s): %u kills, %u resumes, %u jobs, bytes equal, meters equal (%" PRIu64 ")\n", language, tally->kills, tally->resumes,
           tally->jobs, meter);
}

int main(int count, char **words) {
    if (count != 7) end(2, "usage: crash LANGUAGE WORKER DATA FOLDER KILLS SEED", words[0]);
    worker = words[2];
    data = words[3];
    seed = strtoull(words[6], NULL, 10);
    const unsigned wanted = (unsigned)strtoul(words[5], NULL, 10);
    char whole[PATH], cut[PATH];
    if (mkdir(words[4], 0755) != 0 && errno != EEXIST) end(2, strerror(errno), words[4]);
    path_in(words[4], "whole", whole);
    path_in(words[4], "cut", cut);
    const uint64_t taken = uninterrupted(whole), longest = longest_of(taken);
    printf("crash test (%s): seed %" PRIu64 ", uninterrupted %" PRIu64 " ms, kills within %" PRIu64 " ms of a start\n", words[1], seed,
           taken / 1000000, longest / 1000000);
    tally tally = { 0 };
    while (!enough(&tally, wanted)) {
        interrupted(cut, wanted, longest, &tally);
        compare(whole, cut);
    }
    print_tally(words[1], &tally, meter_of(whole));
    return 0;
}
