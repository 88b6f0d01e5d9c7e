//! Frames as a voice is given them, and the real announcement, read from its streams.

use std::path::Path;

/// How a voice is opened.
pub struct Settings {
    pub nmcp: usize,
    pub nlpf: usize,
    pub stage: usize,
    pub log_gain: bool,
    pub rate: usize,
    pub alpha: f64,
    pub beta: f64,
    pub volume: f64,
    pub fperiod: usize,
}

#[derive(Clone)]
pub struct Frame {
    pub lf0: f64,
    pub spectrum: Vec<f64>,
    pub lpf: Vec<f64>,
}

/// Frames for one voice, from its opening on.
pub struct FrameSet {
    pub name: String,
    pub settings: Settings,
    pub frames: Vec<Frame>,
    /// How many of them meet an argument outside ln, cos or a power.
    pub refusals: usize,
    /// The largest difference, as a part of the peak, that the bands of our functions explain. It is
    /// infinite where the pinned Rust itself runs away or magnifies the last bit.
    pub most: f64,
}

/// The announcement's streams of spectra, each with its stage.
pub const SPECTRA: [(&str, usize); 2] = [("announcement.sp", 0), ("announcement.lsp2", 2)];

/// The announcement as cepstra (stage 0) and as line spectral pairs (stage 2), each without postfilter
/// and with it.
pub fn announcement(folder: &Path) -> Result<Vec<FrameSet>, String> {
    let mut sets = Vec::new();
    for (spectra, stage) in SPECTRA {
        for beta in [0.0, 0.4] {
            sets.push(announcement_at(folder, spectra, stage, beta)?);
        }
    }
    Ok(sets)
}

/// The rate, the frame period and alpha are those that the streams were made for. At stage 2 the
/// pinned Rust's filter runs away.
fn announcement_at(
    folder: &Path,
    spectra: &str,
    stage: usize,
    beta: f64,
) -> Result<FrameSet, String> {
    let lf0 = stream(&folder.join("announcement.lf0"))?;
    let spectra = split(stream(&folder.join(spectra))?, lf0.len())?;
    let taps = split(stream(&folder.join("announcement.lpf"))?, lf0.len())?;
    let settings = Settings {
        nmcp: spectra[0].len(),
        nlpf: taps[0].len(),
        stage,
        log_gain: stage > 0,
        rate: 16_000,
        alpha: 0.42,
        beta,
        volume: 1.0,
        fperiod: 80,
    };
    let frames = lf0.into_iter().zip(spectra).zip(taps);
    Ok(FrameSet {
        name: format!("announcement, stage {stage}, beta {beta}"),
        settings,
        frames: frames
            .map(|((lf0, spectrum), lpf)| Frame { lf0, spectrum, lpf })
            .collect(),
        refusals: 0,
        most: if stage == 0 { 1e-12 } else { f64::INFINITY },
    })
}

/// A stream of 32-bit floats, low byte first.
fn stream(path: &Path) -> Result<Vec<f64>, String> {
    let bytes = std::fs::read(path).map_err(|error| format!("{}: {error}", path.display()))?;
    match bytes.as_chunks::<4>() {
        (floats @ [_, ..], []) => Ok(floats
            .iter()
            .map(|bytes| f64::from(f32::from_le_bytes(*bytes)))
            .collect()),
        _ => Err(format!("{}: not a stream of floats", path.display())),
    }
}

/// Cuts a stream into as many parts as there are frames.
fn split(stream: Vec<f64>, frames: usize) -> Result<Vec<Vec<f64>>, String> {
    if !stream.len().is_multiple_of(frames) {
        return Err(format!("{} floats for {frames} frames", stream.len()));
    }
    let parts = stream.chunks(stream.len() / frames);
    Ok(parts.map(<[f64]>::to_vec).collect())
}
