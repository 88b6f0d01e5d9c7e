// Sound files: the numbers at the edges of rounding and holding, files in pieces and whole, read back, with chunks that the reader skips; every
// refusal of the five calls, and that a refused one writes nothing.
#include "testing.h"
#include <float.h>
#include <math.h>
#include <string.h>

enum { ROOM = 256, RATE = 16000, MOST = 64 };
static const uint8_t FILL_BYTE = 0xA5;
static const int32_t FILL = -77;

// A file, with room for more.
typedef struct {
    uint8_t bytes[ROOM];
    size_t length;
} file;

// The samples 1 and -2 in 16 bits, and -1 in 24.
static const file SIXTEEN = { .length = 48, .bytes = "RIFF\x28\0\0\0WAVE"
                                                      "fmt \x10\0\0\0\1\0\1\0\x80\x3e\0\0\0\x7d\0\0\2\0\x10\0"
                                                      "data\4\0\0\0\1\0\xfe\xff" };
static const file TWENTY_FOUR = { .length = 48, .bytes = "RIFF\x28\0\0\0WAVE"
                                                          "fmt \x10\0\0\0\1\0\1\0\x80\x3e\0\0\x80\xbb\0\0\3\0\x18\0"
                                                          "data\3\0\0\0\0\xff\xff\0" };

// A sample, its number in a file of some width, and whether it was held back.
typedef struct {
    double sample;
    int32_t number;
    bool held;
} edge;

// Those of the small files.
static const edge TWO[] = { { 1.0, 1, false }, { -2.0, -2, false } }, ONE = { -1.0, -256, false };

static const edge EDGES_16[] = {
    { 0.5, 0, false },
    { 1.5, 2, false },
    { -2.5, -2, false },
    { -0.0, 0, false },
    { 0.49999999999999994, 0, false },
    { 0.5000000000000001, 1, false },
    { -3.5, -4, false },
    { NAN, 0, false },
    { -NAN, 0, false },
    { 32766.5, 32766, false },
    { 32767.4, 32767, false },
    { 32767.5, 32767, true },
    { -32768.5, -32768, false },
    { -32768.50000000001, -32768, true },
    { 65536.0, 32767, true },
    { DBL_MAX, 32767, true },
    { INFINITY, 32767, true },
    { -INFINITY, -32768, true },
    { -1234.25, -1234, false },
};

static const edge EDGES_24[] = {
    { 1.0 / 512, 0, false },
    { 3.0 / 512, 2, false },
    { -5.0 / 512, -2, false },
    { 1.0, 256, false },
    { NAN, 0, false },
    { 32767.5, 8388480, false },
    { 8388606.5 / 256, 8388606, false },
    { 8388607.25 / 256, 8388607, false },
    { 8388607.5 / 256, 8388607, true },
    { -8388608.5 / 256, -8388608, false },
    { -8388608.75 / 256, -8388608, true },
    { DBL_MAX, 8388607, true },
    { -DBL_MAX, -8388608, true },
    { INFINITY, 8388607, true },
    { -INFINITY, -8388608, true },
    { -65537.0 / 256, -65537, false },
};

enum { COUNT_16 = sizeof EDGES_16 / sizeof *EDGES_16, COUNT_24 = sizeof EDGES_24 / sizeof *EDGES_24 };

// The samples of so many edges.
static void samples_of(const edge *edges, size_t count, double samples[MOST]) {
    for (size_t i = 0; i < count; i++) samples[i] = edges[i].sample;
}

static size_t held_of(const edge *edges, size_t count) {
    size_t held = 0;
    for (size_t i = 0; i < count; i++) held += edges[i].held;
    return held;
}

// The bytes that a call must have written.
static size_t wrote(kipawnore_written written, size_t bytes, size_t held) {
    ANSWERS(written.number, KIPAWNORE_DONE);
    CHECK(written.bytes == bytes && written.held == held);
    return written.bytes;
}

// The file of so many edges. What is behind it stays.
static file whole(uint64_t bits, const edge *edges, size_t count) {
    file made;
    double samples[MOST] = { 0 };
    const size_t body = bits / 8 * count, all = KIPAWNORE_HEADER_BYTES + body + body % 2;
    memset(&made, FILL_BYTE, sizeof made);
    samples_of(edges, count, samples);
    made.length = wrote(kipawnore_write_sound(bits, RATE, samples, count, made.bytes, ROOM), all, held_of(edges, count));
    return made;
}

// The same in pieces, the samples in two parts. No piece has more room than it needs.
static file joined(uint64_t bits, const edge *edges, size_t count, size_t cut) {
    file made;
    double samples[MOST] = { 0 };
    uint8_t *to = made.bytes;
    const size_t bytes = bits / 8, rest = count - cut, pad = bytes * count % 2;
    memset(&made, FILL_BYTE, sizeof made);
    samples_of(edges, count, samples);
    to += wrote(kipawnore_sound_header(bits, RATE, count, to, KIPAWNORE_HEADER_BYTES), KIPAWNORE_HEADER_BYTES, 0);
    to += wrote(kipawnore_sound_part(bits, samples, cut, to, bytes * cut), bytes * cut, held_of(edges, cut));
    to += wrote(kipawnore_sound_part(bits, samples + cut, rest, to, bytes * rest), bytes * rest, held_of(edges + cut, rest));
    to += wrote(kipawnore_sound_pad(bits, count, to, pad), pad, 0);
    made.length = (size_t)(to - made.bytes);
    return made;
}

static void fill(int32_t out[MOST]) {
    for (size_t i = 0; i < MOST; i++) out[i] = FILL;
}

// Reads a file with no room, with too little, with as much as it needs and with more.
static void hear(file file, uint64_t bits, uint64_t rate, const edge *edges, size_t count) {
    const size_t rooms[] = { 0, count > 0 ? count - 1 : 0, count, MOST };
    for (size_t i = 0; i < sizeof rooms / sizeof *rooms; i++) {
        const bool taken = rooms[i] >= count;
        int32_t out[MOST];
        fill(out);
        kipawnore_heard heard = kipawnore_read_sound(file.bytes, file.length, rooms[i] == 0 ? NULL : out, rooms[i]);
        ANSWERS(heard.number, taken ? KIPAWNORE_DONE : KIPAWNORE_ROOM_SHORT);
        CHECK(heard.bits == bits && heard.rate == rate && heard.count == count);
        for (size_t j = 0; j < MOST; j++) CHECK(out[j] == (taken && j < count ? edges[j].number : FILL));
    }
}

// The first edges, from none to all of them: written whole, in pieces cut anywhere, read back.
static void test_trips(uint64_t bits, const edge *edges, size_t most) {
    for (size_t count = 0; count <= most; count++) {
        const file made = whole(bits, edges, count);
        for (size_t cut = 0; cut <= count; cut++) {
            const file pieces = joined(bits, edges, count, cut);
            CHECK(pieces.length == made.length && memcmp(pieces.bytes, made.bytes, ROOM) == 0);
        }
        hear(made, bits, RATE, edges, count);
    }
}

// The small files are as they must be, byte for byte.
static void test_bytes(void) {
    const file sixteen = whole(16, TWO, 2), twenty_four = whole(24, &ONE, 1);
    CHECK(sixteen.length == SIXTEEN.length && memcmp(sixteen.bytes, SIXTEEN.bytes, SIXTEEN.length) == 0);
    CHECK(twenty_four.length == TWENTY_FOUR.length && memcmp(twenty_four.bytes, TWENTY_FOUR.bytes, TWENTY_FOUR.length) == 0);
}

// The calls that write.
typedef enum { WHOLE, HEADER, PART, PAD, CALLS } call;

// Has a call write so many samples, all beyond every width.
static kipawnore_written write_by(call call, uint64_t bits, uint64_t rate, size_t count, uint8_t *out, size_t room) {
    static const double samples[] = { INFINITY, -INFINITY, INFINITY };
    switch (call) {
        case WHOLE: return kipawnore_write_sound(bits, rate, samples, count, out, room);
        case HEADER: return kipawnore_sound_header(bits, rate, count, out, room);
        case PART: return kipawnore_sound_part(bits, samples, count, out, room);
        default: return kipawnore_sound_pad(bits, count, out, room);
    }
}

static void refuse_write(call call, uint64_t bits, uint64_t rate, size_t count, size_t room, uint64_t number) {
    uint8_t out[ROOM];
    memset(out, FILL_BYTE, ROOM);
    kipawnore_written written = write_by(call, bits, rate, count, out, room);
    ANSWERS(written.number, number);
    CHECK(written.bytes == 0 && written.held == 0);
    for (size_t i = 0; i < ROOM; i++) CHECK(out[i] == FILL_BYTE);
}

// 1: the bits of each call, and the rate of those that have one. It comes before 22 and 23.
static void test_sound_limits(void) {
    static const uint64_t bits[] = { 0, 8, 15, 17, 23, 25, 32, 0x100000010, UINT64_MAX }, rates[] = { 0, 192001, 0x100000001, UINT64_MAX };
    for (size_t i = 0; i < sizeof bits / sizeof *bits; i++) {
        for (call call = WHOLE; call < CALLS; call++) {
            refuse_write(call, bits[i], RATE, 3, ROOM, KIPAWNORE_LIMIT_BROKEN);
            refuse_write(call, bits[i], RATE, 3, 0, KIPAWNORE_LIMIT_BROKEN);
        }
        refuse_write(HEADER, bits[i], RATE, SIZE_MAX, 0, KIPAWNORE_LIMIT_BROKEN);
    }
    for (size_t i = 0; i < sizeof rates / sizeof *rates; i++) {
        for (call call = WHOLE; call <= HEADER; call++) {
            refuse_write(call, 16, rates[i], 3, ROOM, KIPAWNORE_LIMIT_BROKEN);
            refuse_write(call, 24, rates[i], 3, 0, KIPAWNORE_LIMIT_BROKEN);
        }
        refuse_write(HEADER, 16, rates[i], SIZE_MAX, 0, KIPAWNORE_LIMIT_BROKEN);
    }
}

// The header of a file, held to its rate and the sizes in it.
static void test_header(uint64_t bits, uint64_t rate, size_t count, uint32_t size, uint32_t body) {
    uint8_t out[ROOM] = { 0 };
    wrote(kipawnore_sound_header(bits, rate, count, out, ROOM), KIPAWNORE_HEADER_BYTES, 0);
    CHECK((uint32_t)word_at(out + 4) == size && (uint32_t)word_at(out + 40) == body);
    CHECK(word_at(out + 24) == (rate | rate * (bits / 8) << 32));
}

// 22, which comes before 23: one sample too many, and so many that their bytes come to few again modulo 2^64. The longest file is taken, at both ends of
// the rate.
static void test_lengths(uint64_t bits, size_t most, uint32_t size, uint32_t body) {
    const size_t wrong[] = { most + 1, UINT32_MAX, SIZE_MAX / (bits / 8) + 1, SIZE_MAX };
    for (size_t i = 0; i < sizeof wrong / sizeof *wrong; i++) {
        refuse_write(HEADER, bits, RATE, wrong[i], ROOM, KIPAWNORE_TOO_LONG);
        refuse_write(HEADER, bits, RATE, wrong[i], 0, KIPAWNORE_TOO_LONG);
    }
    test_header(bits, 1, most, size, body);
    test_header(bits, 192000, most, size, body);
}

// 23, of each call with a byte too little and with none.
static void test_short_rooms(uint64_t bits) {
    const size_t bytes = bits / 8 * 3, needed[CALLS] = { KIPAWNORE_HEADER_BYTES + bytes + bytes % 2, KIPAWNORE_HEADER_BYTES, bytes, bytes % 2 };
    for (call call = WHOLE; call < CALLS; call++) {
        if (needed[call] == 0) continue;
        refuse_write(call, bits, RATE, 3, needed[call] - 1, KIPAWNORE_ROOM_SHORT);
        refuse_write(call, bits, RATE, 3, 0, KIPAWNORE_ROOM_SHORT);
    }
}

// The places of the chunks in the small files, and a chunk that no reader knows, padded.
enum { SIZE = 4, FORMAT = 12, DATA = 36, END = 48, ODD = 12 };
static const char odd[] = "LIST\3\0\0\0abc";

// A file with more bytes put in, which its size counts too. It stays below 256.
static file with(file before, size_t at, const char *bytes, size_t count) {
    memmove(before.bytes + at + count, before.bytes + at, before.length - at);
    memcpy(before.bytes + at, bytes, count);
    before.length += count;
    before.bytes[SIZE] += (uint8_t)count;
    return before;
}

// A file with another byte, and one of another length.
static file changed(file before, size_t at, uint8_t byte) {
    before.bytes[at] = byte;
    return before;
}
static file of_length(file before, size_t length) {
    before.length = length;
    return before;
}

// The small files in the forms that others write.
static void test_forms(void) {
    const file skipped = with(with(with(SIXTEEN, END, odd, ODD), DATA, odd, ODD), FORMAT, odd, ODD);
    hear(skipped, 16, RATE, TWO, 2);
    hear(of_length(skipped, skipped.length + 3), 16, RATE, TWO, 2); // with bytes behind it
    hear(changed(with(SIXTEEN, DATA, "\0", 2), 16, 18), 16, RATE, TWO, 2);
    hear(changed(changed(changed(SIXTEEN, 24, 0), 25, 0), 27, 0x80), 16, 0x80000000, TWO, 2);
    hear(with(TWENTY_FOUR, END, odd, ODD), 24, RATE, &ONE, 1);
    hear(changed(of_length(TWENTY_FOUR, END - 1), SIZE, 39), 24, RATE, &ONE, 1); // without its pad
}

// A file is refused with room and without: 23 comes last.
static void refuse_read(file wrong, uint64_t number) {
    const size_t rooms[] = { MOST, 0 };
    for (size_t i = 0; i < 2; i++) {
        int32_t out[MOST];
        fill(out);
        kipawnore_heard heard = kipawnore_read_sound(wrong.bytes, wrong.length, out, rooms[i]);
        ANSWERS(heard.number, number);
        CHECK(heard.bits == 0 && heard.rate == 0 && heard.count == 0);
        for (size_t j = 0; j < MOST; j++) CHECK(out[j] == FILL);
    }
}

// The extensible format of PCM is read, and no other.
static void test_extensible(void) {
    static const char extension[] = "\x16\0\x10\0\4\0\0\0\1\0\0\0\0\0\x10\0\x80\0\0\xaa\0\x38\x9b\x71";
    const file named = changed(changed(SIXTEEN, 20, 0xfe), 21, 0xff), extensible = changed(with(named, DATA, extension, 24), 16, 40);
    hear(extensible, 16, RATE, TWO, 2);
    refuse_read(named, KIPAWNORE_NOT_SOUND_FILE);
    refuse_read(changed(extensible, DATA + 8, 3), KIPAWNORE_NOT_SOUND_FILE);
    refuse_read(changed(extensible, DATA + 23, 0), KIPAWNORE_NOT_SOUND_FILE);
}

// A byte of the file of 16 bits, changed.
typedef struct {
    size_t at;
    uint8_t byte;
} change;

// 20 and 21 by one byte; where both apply at a chunk, 20 is given.
static void test_wrong_bytes(void) {
    static const change not_sound[] = {
        { 3, 'X' },     { 8, 'w' },      // the names
        { SIZE, 3 },    { SIZE, 4 },     // no room for a name, or for a chunk
        { SIZE, 28 },   { FORMAT, 'F' }, // no data; no format
        { 16, 17 },     { 19, 1 },       // the format's size
        { 20, 3 },      { 22, 2 },       // floats; two channels
        { 32, 1 },      { 32, 3 },       // the bytes of a sample
        { 34, 8 },      { 34, 24 },      // its bits
        { DATA, 'D' },  { 40, 3 },       // no data; half a sample
        { 40, 5 },      { 40, 7 },       // the same past the end
    };
    static const change past_end[] = {
        { SIZE, 41 },   { 7, 0x80 },     // the file
        { SIZE, 30 },   { SIZE, 39 },    // it ends in the data's chunk
        { 16, 40 },     { 40, 6 },       // the format; the data
        { 43, 0x80 },   { 40, 2 },       // far past; two bytes are left
    };
    for (size_t i = 0; i < sizeof not_sound / sizeof *not_sound; i++) {
        refuse_read(changed(SIXTEEN, not_sound[i].at, not_sound[i].byte), KIPAWNORE_NOT_SOUND_FILE);
    }
    for (size_t i = 0; i < sizeof past_end / sizeof *past_end; i++) {
        refuse_read(changed(SIXTEEN, past_end[i].at, past_end[i].byte), KIPAWNORE_CHUNK_PAST_END);
    }
}

// 20 and 21 by what is missing, too many or in the wrong order; of two faults the first in the file is told.
static void test_wrong_chunks(void) {
    const file stereo = changed(SIXTEEN, 22, 2);
    const char *format = (const char *)SIXTEEN.bytes + FORMAT, *data = (const char *)SIXTEEN.bytes + DATA;
    for (size_t length = 0; length < END; length++) {
        refuse_read(of_length(SIXTEEN, length), length < FORMAT ? KIPAWNORE_NOT_SOUND_FILE : KIPAWNORE_CHUNK_PAST_END);
    }
    refuse_read(with(SIXTEEN, DATA, format, DATA - FORMAT), KIPAWNORE_NOT_SOUND_FILE);
    refuse_read(with(SIXTEEN, END, data, END - DATA), KIPAWNORE_NOT_SOUND_FILE);
    refuse_read(with(SIXTEEN, FORMAT, data, END - DATA), KIPAWNORE_NOT_SOUND_FILE);
    for (size_t torn = 7; torn <= 10; torn += 3) {
        refuse_read(with(SIXTEEN, END, odd, torn), KIPAWNORE_CHUNK_PAST_END);
        refuse_read(with(stereo, END, odd, torn), KIPAWNORE_NOT_SOUND_FILE);
    }
    refuse_read(changed(with(SIXTEEN, FORMAT, odd, ODD), FORMAT + 7, 1), KIPAWNORE_CHUNK_PAST_END);
    refuse_read(changed(with(stereo, FORMAT, odd, ODD), FORMAT + 7, 1), KIPAWNORE_CHUNK_PAST_END);
}

void test_sound(void) {
    test_bytes();
    test_trips(16, EDGES_16, COUNT_16);
    test_trips(24, EDGES_24, COUNT_24);
    test_sound_limits();
    test_lengths(16, 2147483629, 0xFFFFFFFE, 0xFFFFFFDA);
    test_lengths(24, 1431655752, 0xFFFFFFFC, 0xFFFFFFD8);
    test_short_rooms(16);
    test_short_rooms(24);
    test_forms();
    test_extensible();
    test_wrong_bytes();
    test_wrong_chunks();
}
