// The announcement as a sound file, `announce DATA FILE [16|24]`: renders the first job of the folder DATA frame by frame and writes FILE in pieces, its
// header, the samples of each frame, its pad. No more than a frame of samples is there at a time.
#include "render.h"
#include <errno.h>
#include <inttypes.h>
#include <stdio.h>
#include <stdlib.h>
#include <string.h>

enum { MOST_PIECE = 3 * MOST_FPERIOD, GROUPED = 32 };

// The file, as far as it has come.
typedef struct {
    const char *name;
    FILE *file;
    size_t held;
} sound;

static const char usage[] = "usage: announce DATA FILE [16|24]\n"
                            "    DATA   the folder of the jobs, bindings/data\n"
                            "    FILE   the sound file to be written, in a folder that is there\n"
                            "    16|24  the bits of a sample, 16 where none are named\n"
                            "for example: announce bindings/data announcement.wav 24\n";

// Ends the program with what is wrong about a word, and what would be right.
static _Noreturn void explain(const char *what, const char *word) {
    fprintf(stderr, "%s: %s\n%s", word, what, usage);
    exit(2);
}

// Ends the program where a call of the system failed.
static void check_file(bool holds, const char *what, const char *name) {
    if (holds) return;
    fprintf(stderr, "%s: %s: %s\n", name, what, strerror(errno));
    exit(2);
}

static uint64_t bits_of(const char *word) {
    if (strcmp(word, "16") == 0) return 16;
    if (strcmp(word, "24") == 0) return 24;
    explain("a sample has 16 or 24 bits", word);
}

// Writes a piece at the end of the file.
static void append(sound *to, const uint8_t *bytes, kipawnore_written piece) {
    require(piece.number, "a piece of the sound file");
    check_file(fwrite(bytes, 1, piece.bytes, to->file) == piece.bytes, "cannot be written", to->name);
    to->held += piece.held;
}

// Writes the file, which is made only where the job is taken, and gives how many samples were held back.
static size_t announce(const job *job, size_t count, const char *name, uint64_t bits) {
    uint8_t piece[MOST_PIECE];
    double samples[MOST_FPERIOD];
    sound to = { .name = name };
    kipawnore_voice voice = voice_of(job);
    const kipawnore_written header = kipawnore_sound_header(bits, job->configuration.rate, count, piece, MOST_PIECE);
    require(header.number, "a file of so many samples");
    to.file = fopen(name, "wb");
    if (to.file == NULL) explain(strerror(errno), name);
    append(&to, piece, header);
    for (size_t frame = 0; frame < job->frames; frame++) {
        const size_t made = render_frame(job, frame, &voice, samples);
        append(&to, piece, kipawnore_sound_part(bits, samples, made, piece, MOST_PIECE));
    }
    append(&to, piece, kipawnore_sound_pad(bits, count, piece, MOST_PIECE));
    check_file(fclose(to.file) == 0, "cannot be written to its end", name);
    return to.held;
}

// A number with commas between its thousands.
static const char *grouped(uint64_t number, char text[GROUPED]) {
    char digits[GROUPED];
    const int length = snprintf(digits, sizeof digits, "%" PRIu64, number);
    char *to = text;
    for (int i = 0; i < length; i++) {
        if (i > 0 && (length - i) % 3 == 0) *to++ = ',';
        *to++ = digits[i];
    }
    *to = 0;
    return text;
}

int main(int count, char **words) {
    if (count < 3 || count > 4) explain(count < 3 ? "a folder and a file are to be named" : "too many words", words[0]);
    const uint64_t bits = count == 4 ? bits_of(words[3]) : 16;
    job job = read_job(words[1], 0);
    const uint64_t samples = job.frames * job.configuration.fperiod, rate = job.configuration.rate;
    const size_t held = announce(&job, samples, words[2], bits);
    char texts[3][GROUPED];
    printf("%s: %s samples, %.2f s, %" PRIu64 " bits, %s Hz, %s held back\n", words[2], grouped(samples, texts[0]), (double)samples / (double)rate, bits,
           grouped(rate, texts[1]), grouped(held, texts[2]));
    check_file(fflush(stdout) == 0, "cannot be written", "what was done");
    free_job(&job);
    return 0;
}
