// The bridge's calls on sound files, in one form. The inputs: the call, bits, rate, count, then the samples and the buffer, to read the
// file and the buffer, each as the number of its bytes and the bytes in whole words. The answers: what the call answers in four words, to
// write the number, bytes, held and 0, to read the number, bits, rate and count; then the buffer after it.
#include "../bindings/c/kipawnore.h"

void *memcpy(void *to, const void *from, size_t size);
_Noreturn void leave(int status);

enum { WHOLE_FILE, HEADER, PART, PAD, READ_FILE };
enum { MOST_BYTES = 1 << 16 };

typedef struct { uint64_t call, bits, rate; size_t count; } Asked;

typedef union { double samples[MOST_BYTES / 8]; int32_t numbers[MOST_BYTES / 4]; uint8_t bytes[MOST_BYTES]; } Array;

static Array given, buffer;

static size_t words_of(size_t length) {
    return (length + 7) / 8;
}

// Takes an array of as many bytes as the first word says; gives the words behind it.
static const uint64_t *take(const uint64_t *words, Array *array, size_t *length) {
    *length = words[0];
    if (*length > MOST_BYTES) leave(3);
    memcpy(array, words + 1, *length);
    return words + 1 + words_of(*length);
}

static kipawnore_written write_sound(const Asked *asked, size_t samples, size_t room) {
    switch (asked->call) {
        case WHOLE_FILE: return kipawnore_write_sound(asked->bits, asked->rate, given.samples, samples, buffer.bytes, room);
        case HEADER: return kipawnore_sound_header(asked->bits, asked->rate, asked->count, buffer.bytes, room);
        case PART: return kipawnore_sound_part(asked->bits, given.samples, samples, buffer.bytes, room);
        default: return kipawnore_sound_pad(asked->bits, asked->count, buffer.bytes, room);
    }
}

// Answers a request whose inputs are read; gives the number of answers.
size_t sound(const uint64_t *inputs, uint64_t *answers) {
    Asked asked;
    size_t length, room;
    memcpy(&asked, inputs, sizeof asked);
    take(take(inputs + sizeof asked / 8, &given, &length), &buffer, &room);
    if (asked.call == READ_FILE) {
        kipawnore_heard heard = kipawnore_read_sound(given.bytes, length, buffer.numbers, room / 4);
        memcpy(answers, (uint64_t[4]){ heard.number, heard.bits, heard.rate, heard.count }, 4 * 8);
    } else {
        kipawnore_written written = write_sound(&asked, length / 8, room);
        memcpy(answers, (uint64_t[4]){ written.number, written.bytes, written.held, 0 }, 4 * 8);
    }
    if (room > 0) answers[3 + words_of(room)] = 0;
    memcpy(answers + 4, &buffer, room);
    return 4 + words_of(room);
}
