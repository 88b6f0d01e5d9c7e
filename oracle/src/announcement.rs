//! The announcement's jobs for bindings/: how each is opened, and the count and checksum of the routed copy's samples with our functions.

use crate::constants::{MAX_LF0, MIN_LF0, NODATA};
use crate::frames::{FrameSet, SPECTRA, announcement};
use crate::ours::Ours;
use crate::remembered::Remembered;
use crate::routes;
use crate::stretches::bits;
use routed::vocoder::Vocoder;
use std::cell::RefCell;
use std::path::Path;
use std::rc::Rc;

/// What the checksum is multiplied by before the next sample's bits are added, as crates/restart does.
const FACTOR: u64 = 6_364_136_223_846_793_005;

/// Prints a heading and a line for each job, as bindings/data/jobs.txt has them.
pub fn print_jobs(ours: &Rc<RefCell<Ours>>, folder: &Path) -> Result<(), String> {
    routes::answer_by(&Remembered::new(ours).answerer());
    println!(
        "# spectrum nmcp nlpf stage log rate alpha beta volume fperiod nodata low high samples checksum"
    );
    for set in announcement(folder)? {
        println!("{}", line(&set)?);
    }
    Ok(())
}

fn line(set: &FrameSet) -> Result<String, String> {
    let (samples, checksum) = render(set)?;
    let s = &set.settings;
    let spectrum = SPECTRA.iter().find(|(_, stage)| *stage == s.stage);
    let (spectrum, _) = spectrum.ok_or("a stage without a stream")?;
    let log = u8::from(s.log_gain);
    Ok(format!(
        "{spectrum} {} {} {} {log} {} {} {} {} {} {NODATA} {MIN_LF0} {MAX_LF0} {samples} {checksum:016x}",
        s.nmcp, s.nlpf, s.stage, s.rate, s.alpha, s.beta, s.volume, s.fperiod
    ))
}

/// The count of a set's samples and the checksum of their bits, all NaNs taken as one.
fn render(set: &FrameSet) -> Result<(usize, u64), String> {
    let s = &set.settings;
    let mut vocoder = Vocoder::new(
        s.nmcp, s.nlpf, s.stage, s.log_gain, s.rate, s.alpha, s.beta, s.volume, s.fperiod,
    );
    let (mut count, mut sum) = (0, 0_u64);
    let mut samples = vec![0.0; s.fperiod];
    for frame in &set.frames {
        routes::take_outside();
        vocoder.synthesize(frame.lf0, &frame.spectrum, &frame.lpf, &mut samples);
        if routes::take_outside() > 0 {
            return Err(format!("{}: a frame is refused", set.name));
        }
        count += samples.len();
        sum = bits(&samples).fold(sum, |sum, bits| sum.wrapping_mul(FACTOR).wrapping_add(bits));
    }
    Ok((count, sum))
}
