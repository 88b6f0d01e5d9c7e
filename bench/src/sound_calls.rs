//! The functions of libexport_sound.a that write a whole file and read one, reached by pointers through shim_sound.c.

#[repr(C)]
#[derive(Default)]
struct Written {
    number: u64,
    bytes: usize,
    held: usize,
}

#[repr(C)]
#[derive(Default)]
struct Heard {
    number: u64,
    bits: u64,
    rate: u64,
    count: usize,
}

// The shim before what it calls, as in shim.rs.
#[link(name = "shim", kind = "static")]
#[link(name = "export_sound", kind = "static")]
unsafe extern "C" {
    fn shim_write_sound(
        after: &mut Written,
        bits: u64,
        rate: u64,
        samples: *const f64,
        nsamples: usize,
        out: *mut u8,
        nout: usize,
    );
    fn shim_read_sound(
        after: &mut Heard,
        bytes: *const u8,
        nbytes: usize,
        out: *mut i32,
        nout: usize,
    );
}

/// Fills `file`, as long as the samples need, and gives how many of them were held back.
pub fn write(bits: u64, rate: u64, samples: &[f64], file: &mut [u8]) -> usize {
    let mut after = Written::default();
    let (from, n) = (samples.as_ptr(), samples.len());
    let (to, nto) = (file.as_mut_ptr(), file.len());
    // SAFETY: each pointer goes with the length of its slice.
    unsafe { shim_write_sound(&mut after, bits, rate, from, n, to, nto) };
    assert_eq!((after.number, after.bytes), (0, file.len()));
    after.held
}

/// The numbers of a file of so many samples.
pub fn read(bits: u64, rate: u64, file: &[u8], numbers: &mut [i32]) {
    let mut after = Heard::default();
    let (from, n) = (file.as_ptr(), file.len());
    let (to, nto) = (numbers.as_mut_ptr(), numbers.len());
    // SAFETY: each pointer goes with the length of its slice.
    unsafe { shim_read_sound(&mut after, from, n, to, nto) };
    assert_eq!((after.number, after.count), (0, numbers.len()));
    assert_eq!((after.bits, after.rate), (bits, rate));
}
