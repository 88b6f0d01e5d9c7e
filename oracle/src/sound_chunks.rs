//! Chunks of sound files, and files of them.

use crate::sound::What;
use crate::sound_folder::Named;
use crate::sound_writing;

/// A chunk: its tag, the size that it says, and the bytes behind, with the pad.
#[derive(Clone)]
pub struct Chunk {
    pub tag: [u8; 4],
    pub size: u32,
    pub bytes: Vec<u8>,
}

impl Chunk {
    /// A chunk as it should be: with its size, and a pad where that is odd.
    pub fn new(tag: &[u8; 4], mut bytes: Vec<u8>) -> Self {
        let size = bytes.len() as u32;
        bytes.resize(bytes.len().next_multiple_of(2), 0);
        Self {
            tag: *tag,
            size,
            bytes,
        }
    }

    /// A format of 16, 18 or 40 bytes for one channel of PCM, so many bytes a sample.
    pub fn format(size: usize, width: u16, rate: u32) -> Self {
        let tag: u16 = if size == 40 { 0xFFFE } else { 1 };
        let mut bytes = [tag.to_le_bytes(), 1u16.to_le_bytes()].concat();
        bytes.extend(rate.to_le_bytes());
        bytes.extend((rate.wrapping_mul(width.into())).to_le_bytes());
        bytes.extend([width, 8 * width].map(u16::to_le_bytes).concat());
        if size > 16 {
            bytes.extend((size as u16 - 18).to_le_bytes());
        }
        if size == 40 {
            bytes.extend((8 * width).to_le_bytes());
            bytes.extend(4u32.to_le_bytes()); // the speaker in the middle
            bytes.extend(b"\x01\0\0\0\0\0\x10\0\x80\0\0\xAA\0\x38\x9B\x71");
        }
        Self::new(b"fmt ", bytes)
    }
}

/// A file of these chunks, whose size counts all of them.
pub fn riff(chunks: &[Chunk]) -> Vec<u8> {
    let mut body = b"WAVE".to_vec();
    for chunk in chunks {
        body.extend(chunk.tag);
        body.extend(chunk.size.to_le_bytes());
        body.extend(&chunk.bytes);
    }
    let mut file = b"RIFF".to_vec();
    file.extend((body.len() as u32).to_le_bytes());
    file.extend(body);
    file
}

/// Three files: as ours are written, 24 bits, an odd number of samples and so a pad; a format of 40 bytes and a chunk behind
/// it, 24 bits; an odd chunk with its pad before the format and another chunk behind the samples, 16 bits.
pub fn built() -> [Named; 3] {
    let samples = [0.25, -1.0, 32_767.0, -32_768.0, 12_345.5];
    let ours = What::File {
        rate: 48_000,
        samples: &samples,
    };
    let (ours, _) = sound_writing::bytes(&ours, 24);
    let extensible = riff(&[
        Chunk::format(40, 3, 44_100),
        Chunk::new(b"fact", 4u32.to_le_bytes().to_vec()),
        Chunk::new(b"data", (0..12).map(|byte| byte * 21).collect()),
    ]);
    let among_others = riff(&[
        Chunk::new(b"junk", b"odd".to_vec()),
        Chunk::format(16, 2, 8_000),
        Chunk::new(b"data", (0..10).map(|byte| byte * 27).collect()),
        Chunk::new(b"LIST", b"INFOISFT\x05\0\0\0none\0\0".to_vec()),
    ]);
    let named = |name: &str, file| (name.to_string(), file);
    [
        named("a file with a pad", ours),
        named("a format of 40 bytes", extensible),
        named("a file with other chunks", among_others),
    ]
}
