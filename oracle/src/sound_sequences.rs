//! Random files of chunks: a format and samples, other chunks anywhere between them, and in half of the files one fault or two.

use crate::generator::Generator;
use crate::sound_chunks::{Chunk, riff};

/// Tags of chunks that are skipped, some of which are nearly those of a format or of samples.
const OTHERS: [&[u8; 4]; 8] = [
    b"LIST", b"fact", b"junk", b"fmt\0", b"FMT ", b"Data", b"WAVE", b"RIFF",
];

/// The most bytes of a chunk of no certain size.
const MOST: u64 = 24;

pub fn any_file(random: &mut Generator) -> Vec<u8> {
    let width = 2 + random.below(2) as u16;
    let mut chunks = vec![any_format(width, random), any_data(width, random)];
    for _ in 0..random.below(4) {
        let place = random.below(chunks.len() as u64 + 1) as usize;
        chunks.insert(place, any_other(random));
    }
    for _ in 0..[0, 0, 1, 2][random.below(4) as usize] {
        damage(&mut chunks, random);
    }
    let mut file = riff(&chunks);
    damage_whole(&mut file, random);
    file
}

fn any_bytes(count: u64, random: &mut Generator) -> Vec<u8> {
    (0..count).map(|_| random.word() as u8).collect()
}

/// A format that is accepted; the extension of one of 18 or 40 bytes may say anything but what it is.
fn any_format(width: u16, random: &mut Generator) -> Chunk {
    let size = [16, 18, 40][random.below(3) as usize];
    let mut format = Chunk::format(size, width, random.word() as u32);
    if random.below(2) == 0 {
        format.bytes[8..12].copy_from_slice(&any_bytes(4, random));
        let end = size.min(24);
        format.bytes[16..end].copy_from_slice(&any_bytes(end as u64 - 16, random));
    }
    if size == 40 && random.below(4) == 0 {
        format.bytes[..2].copy_from_slice(&[1, 0]);
        format.bytes[24..].copy_from_slice(&any_bytes(16, random));
    }
    format
}

fn any_data(width: u16, random: &mut Generator) -> Chunk {
    let count = random.below(12) * u64::from(width);
    Chunk::new(b"data", any_bytes(count, random))
}

fn any_other(random: &mut Generator) -> Chunk {
    let tag = match random.below(4) {
        0 => &(random.word() as u32).to_le_bytes(),
        _ => OTHERS[random.below(8) as usize],
    };
    let length = random.below(MOST);
    let mut other = Chunk::new(tag, any_bytes(length, random));
    if length % 2 == 1 {
        // A pad need not be 0.
        other.bytes[length as usize] = random.word() as u8;
    }
    other
}

/// One fault, which may leave a file acceptable.
fn damage(chunks: &mut Vec<Chunk>, random: &mut Generator) {
    if chunks.is_empty() {
        return;
    }
    let [place, other] = [(); 2].map(|()| random.below(chunks.len() as u64) as usize);
    match random.below(8) {
        0 => _ = chunks.remove(place),
        1 => chunks.insert(other, chunks[place].clone()),
        2 => chunks.swap(place, other),
        3 => chunks.insert(other, any_data(2 + random.below(2) as u16, random)),
        4 => chunks.insert(other, any_format(2 + random.below(2) as u16, random)),
        _ => damage_chunk(&mut chunks[place], random),
    }
}

/// Another size than there are bytes, no pad, another tag, another content, a content of another length.
fn damage_chunk(chunk: &mut Chunk, random: &mut Generator) {
    let by = 1 + random.below(8) as u32;
    match random.below(8) {
        0 => chunk.size = u32::MAX - random.below(2) as u32,
        1 => chunk.size = chunk.size.saturating_sub(by),
        2 => chunk.size = chunk.size.saturating_add(by),
        3 => chunk.size = random.word() as u32,
        4 => chunk.bytes.truncate(chunk.size as usize),
        5 => chunk.tag = [*b"fmt ", *b"data", *b"junk"][random.below(3) as usize],
        6 => *chunk = Chunk::new(&chunk.tag, any_bytes(random.below(MOST), random)),
        _ => {
            let place = random.below(1 + chunk.bytes.len() as u64) as usize;
            if let Some(byte) = chunk.bytes.get_mut(place) {
                *byte ^= 1 << random.below(8);
            }
        }
    }
}

/// A file's size that is too small, too large or any, bytes behind its end, an end too early, another beginning. Most stay as they are.
fn damage_whole(file: &mut Vec<u8>, random: &mut Generator) {
    let size = u32::from_le_bytes([file[4], file[5], file[6], file[7]]);
    let by = 1 + random.below(9) as u32;
    let other = match random.below(32) {
        0 => size.saturating_sub(by),
        1 => size + by,
        2 => random.below(size.into()) as u32,
        3 => random.below(5) as u32,
        4 => u32::MAX - random.below(10) as u32,
        _ => size,
    };
    file[4..8].copy_from_slice(&other.to_le_bytes());
    match random.below(16) {
        0..4 => file.extend(any_bytes(by.into(), random)),
        4 => file.truncate(random.below(file.len() as u64) as usize),
        5 => file[random.below(12) as usize] ^= 1 << random.below(8),
        _ => {}
    }
}
