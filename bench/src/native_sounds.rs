//! The plain loops, built with every instruction of the processor at hand (`bench/native_rust`).

#[link(name = "native_rust")]
unsafe extern "C" {
    fn native_write_sound(
        bits: u64,
        rate: u64,
        samples: *const f64,
        nsamples: usize,
        file: *mut u8,
        nfile: usize,
    ) -> usize;
    fn native_read_sound(
        bits: u64,
        file: *const u8,
        nfile: usize,
        numbers: *mut i32,
        nnumbers: usize,
    );
}

pub fn write(bits: u64, rate: u64, samples: &[f64], file: &mut [u8]) -> usize {
    let (from, n) = (samples.as_ptr(), samples.len());
    // SAFETY: each pointer goes with the length of its slice.
    unsafe { native_write_sound(bits, rate, from, n, file.as_mut_ptr(), file.len()) }
}

pub fn read(bits: u64, file: &[u8], numbers: &mut [i32]) {
    let (from, n) = (file.as_ptr(), file.len());
    // SAFETY: each pointer goes with the length of its slice.
    unsafe { native_read_sound(bits, from, n, numbers.as_mut_ptr(), numbers.len()) }
}
