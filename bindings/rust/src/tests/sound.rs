//! Sound files: the numbers at the edges of rounding and holding, files in pieces and whole, read back, with chunks that the reader skips; every
//! refusal of the five calls, and that a refused one writes nothing.

use crate::sound::{self, HEADER_BYTES, Heard, Width, Written};
use crate::{Refusal, calls};

const ROOM: usize = 256;
const MOST: usize = 64;
const RATE: u64 = 16_000;
const FILL_BYTE: u8 = 0xA5;
const FILL: i32 = -77;
const WIDTHS: [Width; 2] = [Width::Sixteen, Width::TwentyFour];

/// The samples 1 and -2 in 16 bits, and -1 in 24.
const SIXTEEN: &[u8; 48] = b"RIFF\x28\0\0\0WAVE\
    fmt \x10\0\0\0\x01\0\x01\0\x80\x3e\0\0\0\x7d\0\0\x02\0\x10\0\
    data\x04\0\0\0\x01\0\xfe\xff";
const TWENTY_FOUR: &[u8; 48] = b"RIFF\x28\0\0\0WAVE\
    fmt \x10\0\0\0\x01\0\x01\0\x80\x3e\0\0\x80\xbb\0\0\x03\0\x18\0\
    data\x03\0\0\0\0\xff\xff\0";

/// A sample, its number in a file of some width, and whether it was held back.
type Edge = (f64, i32, bool);

const EDGES_16: [Edge; 19] = [
    (0.5, 0, false),
    (1.5, 2, false),
    (-2.5, -2, false),
    (-0.0, 0, false),
    (0.49999999999999994, 0, false),
    (0.5000000000000001, 1, false),
    (-3.5, -4, false),
    (f64::NAN, 0, false),
    (-f64::NAN, 0, false),
    (32_766.5, 32_766, false),
    (32_767.4, 32_767, false),
    (32_767.5, 32_767, true),
    (-32_768.5, -32_768, false),
    (-32_768.50000000001, -32_768, true),
    (65_536.0, 32_767, true),
    (f64::MAX, 32_767, true),
    (f64::INFINITY, 32_767, true),
    (f64::NEG_INFINITY, -32_768, true),
    (-1_234.25, -1_234, false),
];

const EDGES_24: [Edge; 16] = [
    (1.0 / 512.0, 0, false),
    (3.0 / 512.0, 2, false),
    (-5.0 / 512.0, -2, false),
    (1.0, 256, false),
    (f64::NAN, 0, false),
    (32_767.5, 8_388_480, false),
    (8_388_606.5 / 256.0, 8_388_606, false),
    (8_388_607.25 / 256.0, 8_388_607, false),
    (8_388_607.5 / 256.0, 8_388_607, true),
    (-8_388_608.5 / 256.0, -8_388_608, false),
    (-8_388_608.75 / 256.0, -8_388_608, true),
    (f64::MAX, 8_388_607, true),
    (f64::MIN, -8_388_608, true),
    (f64::INFINITY, 8_388_607, true),
    (f64::NEG_INFINITY, -8_388_608, true),
    (-65_537.0 / 256.0, -65_537, false),
];

fn edges(width: Width) -> &'static [Edge] {
    match width {
        Width::Sixteen => &EDGES_16,
        Width::TwentyFour => &EDGES_24,
    }
}

fn samples_of(edges: &[Edge]) -> Vec<f64> {
    edges.iter().map(|edge| edge.0).collect()
}

fn numbers_of(edges: &[Edge]) -> Vec<i32> {
    edges.iter().map(|edge| edge.1).collect()
}

fn held_of(edges: &[Edge]) -> usize {
    edges.iter().filter(|edge| edge.2).count()
}

/// The bytes of the file of so many samples: header, samples and pad.
fn lengths(width: Width, count: usize) -> [usize; 3] {
    let body = width.bytes() * count;
    [HEADER_BYTES, body, body % 2]
}

/// The file of the edges. What is behind it stays.
fn whole(width: Width, edges: &[Edge]) -> Vec<u8> {
    let mut out = [FILL_BYTE; ROOM];
    let bytes = lengths(width, edges.len()).iter().sum();
    let held = held_of(edges);
    let written = sound::write(width, RATE, &samples_of(edges), &mut out);
    assert_eq!(written, Ok(Written { bytes, held }));
    assert_eq!(out[bytes..], [FILL_BYTE; ROOM][bytes..]);
    out[..bytes].to_vec()
}

/// What a call writes of so many bytes and samples held back. It has no more room than it needs.
fn piece(
    bytes: usize,
    held: usize,
    write: impl Fn(&mut [u8]) -> Result<Written, Refusal>,
) -> Vec<u8> {
    let mut out = vec![FILL_BYTE; bytes];
    assert_eq!(write(&mut out), Ok(Written { bytes, held }));
    out
}

/// The same in pieces, the samples in two parts.
fn joined(width: Width, edges: &[Edge], cut: usize) -> Vec<u8> {
    let [before, _, after] = lengths(width, edges.len());
    let part = |edges: &[Edge]| {
        piece(width.bytes() * edges.len(), held_of(edges), |out| {
            sound::part(width, &samples_of(edges), out)
        })
    };
    [
        piece(before, 0, |out| {
            sound::header(width, RATE, edges.len(), out)
        }),
        part(&edges[..cut]),
        part(&edges[cut..]),
        piece(after, 0, |out| sound::pad(width, edges.len(), out)),
    ]
    .concat()
}

/// Reads a file with no room, with too little, with as much as it needs and with more.
fn hear(file: &[u8], width: Width, rate: u64, wanted: &[i32]) {
    let count = wanted.len();
    let heard = Heard { width, rate, count };
    assert_eq!(sound::count(file), Ok(heard));
    for room in [0, count.saturating_sub(1), count, MOST] {
        let mut numbers = [FILL; MOST];
        let (answer, read) = if room < count {
            (Err(Refusal::ROOM_SHORT), 0)
        } else {
            (Ok(heard), count)
        };
        assert_eq!(sound::read(file, &mut numbers[..room]), answer);
        assert_eq!(numbers[..read], wanted[..read]);
        assert_eq!(numbers[read..], [FILL; MOST][read..]);
    }
}

/// The first edges, from none to all of them: written whole, in pieces cut anywhere, read back.
#[test]
fn numbers_come_back_from_files_and_pieces_of_them() {
    for width in WIDTHS {
        for count in 0..=edges(width).len() {
            let edges = &edges(width)[..count];
            let file = whole(width, edges);
            for cut in 0..=count {
                assert_eq!(joined(width, edges, cut), file);
            }
            hear(&file, width, RATE, &numbers_of(edges));
        }
    }
}

/// The bytes of two small files, each as it must be.
#[test]
fn small_files_are_as_they_must_be() {
    let sixteen = piece(48, 0, |out| {
        sound::write(Width::Sixteen, RATE, &[1.0, -2.0], out)
    });
    assert_eq!(sixteen, SIXTEEN);
    let twenty_four = piece(48, 0, |out| {
        sound::write(Width::TwentyFour, RATE, &[-1.0], out)
    });
    assert_eq!(twenty_four, TWENTY_FOUR);
}

/// Samples beyond every width.
const SAMPLES: [f64; 3] = [f64::INFINITY, f64::NEG_INFINITY, f64::INFINITY];

/// The calls that write: the file, the header, the part of these samples, the pad.
type Call = fn(Width, u64, usize, &mut [u8]) -> Result<Written, Refusal>;
const CALLS: [Call; 4] = [
    |width, rate, _, out| sound::write(width, rate, &SAMPLES, out),
    sound::header,
    |width, _, _, out| sound::part(width, &SAMPLES, out),
    |width, _, count, out| sound::pad(width, count, out),
];

fn refuse_write(call: Call, width: Width, rate: u64, count: usize, room: usize, why: Refusal) {
    let mut out = [FILL_BYTE; ROOM];
    assert_eq!(call(width, rate, count, &mut out[..room]), Err(why));
    assert_eq!(out, [FILL_BYTE; ROOM]);
}

/// Bits that no width has, as only this crate can ask for them. 1 comes before 22 and 23.
#[test]
fn limit_broken_by_bits() {
    for bits in [0, 8, 15, 17, 23, 25, 32, 0x1_0000_0010, u64::MAX] {
        for room in [ROOM, 0] {
            let mut out = [FILL_BYTE; ROOM];
            let (from, n, to) = (SAMPLES.as_ptr(), SAMPLES.len(), out.as_mut_ptr());
            // SAFETY: the pointers are those of the arrays, which are at least so long.
            let answers = unsafe {
                [
                    calls::kipawnore_write_sound(bits, RATE, from, n, to, room),
                    calls::kipawnore_sound_header(bits, RATE, n, to, room),
                    calls::kipawnore_sound_header(bits, RATE, usize::MAX, to, room),
                    calls::kipawnore_sound_part(bits, from, n, to, room),
                    calls::kipawnore_sound_pad(bits, n, to, room),
                ]
            };
            for answer in answers {
                assert_eq!((answer.number, answer.bytes, answer.held), (1, 0, 0));
            }
            assert_eq!(out, [FILL_BYTE; ROOM]);
        }
    }
}

/// The same of the rate, which the file and the header have.
#[test]
fn limit_broken_by_the_rate() {
    for rate in [0, 192_001, 0x1_0000_0001, u64::MAX] {
        for width in WIDTHS {
            for call in &CALLS[..2] {
                refuse_write(*call, width, rate, 3, ROOM, Refusal::LIMIT_BROKEN);
                refuse_write(*call, width, rate, 3, 0, Refusal::LIMIT_BROKEN);
            }
            refuse_write(
                sound::header,
                width,
                rate,
                usize::MAX,
                0,
                Refusal::LIMIT_BROKEN,
            );
        }
    }
}

/// One sample too many, and so many that their bytes come to few again modulo 2^64. 22 comes before 23.
#[test]
fn too_long() {
    for width in WIDTHS {
        let (most, wrap) = (width.most_samples(), usize::MAX / width.bytes());
        for count in [most + 1, u32::MAX as usize, wrap + 1, usize::MAX] {
            refuse_write(sound::header, width, RATE, count, ROOM, Refusal::TOO_LONG);
            refuse_write(sound::header, width, RATE, count, 0, Refusal::TOO_LONG);
        }
    }
}

/// The longest files, at both ends of the rate: the rate and the sizes in their headers.
#[test]
fn the_longest_files_have_headers() {
    let sizes = [(0xFFFF_FFFE, 0xFFFF_FFDA), (0xFFFF_FFFC, 0xFFFF_FFD8)];
    for (width, (size, body)) in WIDTHS.into_iter().zip(sizes) {
        for rate in [1, 192_000_u32] {
            let out = piece(HEADER_BYTES, 0, |out| {
                sound::header(width, u64::from(rate), width.most_samples(), out)
            });
            let (words, _) = out.as_chunks::<4>();
            let word = |at: usize| u32::from_le_bytes(words[at / 4]);
            assert_eq!((word(4), word(40)), (size, body));
            assert_eq!((word(24), word(28)), (rate, rate * width.bytes() as u32));
        }
    }
}

/// A byte too little, and none.
#[test]
fn room_short() {
    for width in WIDTHS {
        let [before, body, after] = lengths(width, SAMPLES.len());
        for (call, needed) in CALLS
            .into_iter()
            .zip([before + body + after, before, body, after])
        {
            if needed > 0 {
                refuse_write(call, width, RATE, 3, needed - 1, Refusal::ROOM_SHORT);
                refuse_write(call, width, RATE, 3, 0, Refusal::ROOM_SHORT);
            }
        }
    }
}

/// The places of the chunks in the small files, and a chunk that no reader knows, padded.
const SIZE: usize = 4;
const FORMAT: usize = 12;
const DATA: usize = 36;
const END: usize = 48;
const ODD: &[u8] = b"LIST\x03\0\0\0abc\0";

/// A file with more bytes put in, which its size counts too. It stays below 256.
fn with(file: &[u8], at: usize, bytes: &[u8]) -> Vec<u8> {
    let mut file = [&file[..at], bytes, &file[at..]].concat();
    file[SIZE] += bytes.len() as u8;
    file
}

/// A file with other bytes.
fn changed(file: &[u8], changes: &[(usize, u8)]) -> Vec<u8> {
    let mut file = file.to_vec();
    for (at, byte) in changes {
        file[*at] = *byte;
    }
    file
}

/// The small files in the forms that others write.
#[test]
fn other_forms_are_read() {
    let sixteen = |file: &[u8], rate| hear(file, Width::Sixteen, rate, &[1, -2]);
    let twenty_four = |file: &[u8]| hear(file, Width::TwentyFour, RATE, &[-256]);
    let skipped = with(&with(&with(SIXTEEN, END, ODD), DATA, ODD), FORMAT, ODD);
    sixteen(&skipped, RATE);
    let followed = [&skipped[..], b"any"].concat();
    sixteen(&followed, RATE);
    let longer = changed(&with(SIXTEEN, DATA, &[0, 0]), &[(16, 18)]);
    sixteen(&longer, RATE);
    let other_rate = changed(SIXTEEN, &[(24, 0), (25, 0), (27, 0x80)]);
    sixteen(&other_rate, 0x8000_0000);
    let padded = with(TWENTY_FOUR, END, ODD);
    twenty_four(&padded);
    let unpadded = changed(&TWENTY_FOUR[..47], &[(SIZE, 39)]);
    twenty_four(&unpadded);
}

/// A file is refused with room and without: 23 comes last.
fn refuse_read(file: &[u8], why: Refusal) {
    for room in [MOST, 0] {
        let mut numbers = [FILL; MOST];
        assert_eq!(sound::read(file, &mut numbers[..room]), Err(why));
        assert_eq!(numbers, [FILL; MOST]);
    }
    assert_eq!(sound::count(file), Err(why));
}

/// The extensible format of PCM is read, and no other.
#[test]
fn extensible_formats() {
    let extension = b"\x16\0\x10\0\x04\0\0\0\x01\0\0\0\0\0\x10\0\x80\0\0\xaa\0\x38\x9b\x71";
    let named = changed(SIXTEEN, &[(20, 0xfe), (21, 0xff)]);
    let extensible = changed(&with(&named, DATA, extension), &[(16, 40)]);
    hear(&extensible, Width::Sixteen, RATE, &[1, -2]);
    refuse_read(&named, Refusal::NOT_SOUND_FILE);
    for wrong in [(DATA + 8, 3), (DATA + 23, 0)] {
        refuse_read(&changed(&extensible, &[wrong]), Refusal::NOT_SOUND_FILE);
    }
}

/// By one byte of the file of 16 bits; where both numbers apply at a chunk, 20 is given.
#[test]
fn not_a_sound_file_and_a_chunk_past_the_end_by_a_byte() {
    let not_sound = [
        [(3, b'X'), (8, b'w')],       // the names
        [(SIZE, 3), (SIZE, 4)],       // no room for a name, or for a chunk
        [(SIZE, 28), (FORMAT, b'F')], // no data; no format
        [(16, 17), (19, 1)],          // the format's size
        [(20, 3), (22, 2)],           // floats; two channels
        [(32, 1), (32, 3)],           // the bytes of a sample
        [(34, 8), (34, 24)],          // its bits
        [(DATA, b'D'), (40, 3)],      // no data; half a sample
        [(40, 5), (40, 7)],           // the same past the end
    ];
    let past_end = [
        [(SIZE, 41), (7, 0x80)],  // the file
        [(SIZE, 30), (SIZE, 39)], // it ends in the data's chunk
        [(16, 40), (40, 6)],      // the format; the data
        [(43, 0x80), (40, 2)],    // far past; two bytes are left
    ];
    for change in not_sound.into_iter().flatten() {
        refuse_read(&changed(SIXTEEN, &[change]), Refusal::NOT_SOUND_FILE);
    }
    for change in past_end.into_iter().flatten() {
        refuse_read(&changed(SIXTEEN, &[change]), Refusal::CHUNK_PAST_END);
    }
}

/// By what is missing, too many or in the wrong order; of two faults the first in the file is told.
#[test]
fn not_a_sound_file_and_a_chunk_past_the_end_by_chunks() {
    for length in 0..END {
        let why = match length {
            ..FORMAT => Refusal::NOT_SOUND_FILE,
            _ => Refusal::CHUNK_PAST_END,
        };
        refuse_read(&SIXTEEN[..length], why);
    }
    let (format, data) = (&SIXTEEN[FORMAT..DATA], &SIXTEEN[DATA..]);
    for (at, chunk) in [(DATA, format), (END, data), (FORMAT, data)] {
        refuse_read(&with(SIXTEEN, at, chunk), Refusal::NOT_SOUND_FILE);
    }
    let long = changed(ODD, &[(7, 1)]);
    let stereo = changed(SIXTEEN, &[(22, 2)]);
    for torn in [&ODD[..7], &ODD[..10]] {
        refuse_read(&with(SIXTEEN, END, torn), Refusal::CHUNK_PAST_END);
        refuse_read(&with(&stereo, END, torn), Refusal::NOT_SOUND_FILE);
    }
    refuse_read(&with(SIXTEEN, FORMAT, &long), Refusal::CHUNK_PAST_END);
    refuse_read(&with(&stereo, FORMAT, &long), Refusal::CHUNK_PAST_END);
}
