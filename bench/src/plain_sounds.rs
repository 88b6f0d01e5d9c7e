//! Sound files as a plain loop in Rust makes and reads them. `bench/native_rust` is built with this file too.

const HEADER: usize = 44;

/// Fills `file`, as long as the samples need and even, and gives how many of them were held back.
#[inline(never)]
pub fn write(bits: u64, rate: u64, samples: &[f64], file: &mut [u8]) -> usize {
    let (header, data) = file.split_at_mut(HEADER);
    write_header(bits as u16, rate as u32, data.len() as u32, header);
    match bits {
        16 => write_samples::<2>(samples, data),
        _ => write_samples::<3>(samples, data),
    }
}

/// One channel of whole numbers, low byte first.
fn write_header(bits: u16, rate: u32, size: u32, header: &mut [u8]) {
    let width = bits / 8;
    let parts: [&[u8]; 11] = [
        b"RIFF",
        &(36 + size).to_le_bytes(),
        b"WAVEfmt ",
        &16_u32.to_le_bytes(),
        &[1, 0, 1, 0],
        &rate.to_le_bytes(),
        &(rate * u32::from(width)).to_le_bytes(),
        &width.to_le_bytes(),
        &bits.to_le_bytes(),
        b"data",
        &size.to_le_bytes(),
    ];
    header.copy_from_slice(&parts.concat());
}

/// A NaN is not out of range, stays one when it is clamped, and becomes 0.
fn write_samples<const WIDTH: usize>(samples: &[f64], data: &mut [u8]) -> usize {
    let scale = f64::from(1 << (8 * WIDTH - 16));
    let (low, high) = (-32_768.0 * scale, 32_768.0 * scale - 1.0);
    let mut held = 0;
    for (x, bytes) in samples.iter().zip(data.chunks_exact_mut(WIDTH)) {
        let rounded = (x * scale).round_ties_even();
        held += usize::from(rounded < low || rounded > high);
        let number = rounded.clamp(low, high) as i32;
        bytes.copy_from_slice(&number.to_le_bytes()[..WIDTH]);
    }
    held
}

/// The numbers of a file that `write` made.
#[inline(never)]
pub fn read(bits: u64, file: &[u8], numbers: &mut [i32]) {
    let data = &file[HEADER..];
    match bits {
        16 => {
            for (number, bytes) in numbers.iter_mut().zip(data.chunks_exact(2)) {
                *number = i32::from(i16::from_le_bytes([bytes[0], bytes[1]]));
            }
        }
        _ => {
            for (number, bytes) in numbers.iter_mut().zip(data.chunks_exact(3)) {
                *number = i32::from_le_bytes([0, bytes[0], bytes[1], bytes[2]]) >> 8;
            }
        }
    }
}
