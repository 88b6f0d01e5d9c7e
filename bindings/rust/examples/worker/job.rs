//! A job of the announcement (data/jobs.txt): how its voice is opened, and its frames.

use kipawnore::Configuration;
use std::fs;
use std::path::Path;

pub struct Job {
    pub configuration: Configuration,
    pub frames: Vec<Frame>,
}

pub struct Frame {
    pub lf0: f64,
    pub spectrum: Vec<f64>,
    pub lpf: Vec<f64>,
}

/// Reads a job from the data's folder. They are counted from 0.
pub fn read_job(folder: &Path, which: usize) -> Result<Job, String> {
    let mut words = read_line(folder, which)?.into_iter();
    let spectrum = words.next().ok_or("an empty line")?;
    let configuration = Configuration {
        nmcp: number(words.next())?,
        nlpf: number(words.next())?,
        stage: number(words.next())?,
        log: number::<u8>(words.next())? != 0,
        rate: number(words.next())?,
        alpha: number(words.next())?,
        beta: number(words.next())?,
        volume: number(words.next())?,
        fperiod: number(words.next())?,
        nodata: number(words.next())?,
        low: number(words.next())?,
        high: number(words.next())?,
    };
    let frames = read_frames(folder, &spectrum, &configuration)?;
    Ok(Job {
        configuration,
        frames,
    })
}

/// The words of a job's line, after the heading.
pub fn read_line(folder: &Path, which: usize) -> Result<Vec<String>, String> {
    let path = folder.join("jobs.txt");
    let text = fs::read_to_string(&path).map_err(|error| format!("{}: {error}", path.display()))?;
    let line = text
        .lines()
        .nth(which + 1)
        .ok_or(format!("no job {which}"))?;
    Ok(line.split(' ').map(str::to_string).collect())
}

fn number<N: std::str::FromStr>(word: Option<String>) -> Result<N, String> {
    let word = word.ok_or("too short a line")?;
    word.parse().map_err(|_| format!("not a number: {word}"))
}

fn read_frames(folder: &Path, spectrum: &str, of: &Configuration) -> Result<Vec<Frame>, String> {
    let lf0 = read_stream(&folder.join("announcement.lf0"))?;
    let spectra = read_stream(&folder.join(spectrum))?;
    let taps = read_stream(&folder.join("announcement.lpf"))?;
    if spectra.len() != lf0.len() * of.nmcp || taps.len() != lf0.len() * of.nlpf {
        return Err(format!("{spectrum}: not as long as the job says"));
    }
    let frame = |(i, lf0): (usize, f64)| Frame {
        lf0,
        spectrum: spectra[i * of.nmcp..][..of.nmcp].to_vec(),
        lpf: taps[i * of.nlpf..][..of.nlpf].to_vec(),
    };
    Ok(lf0.into_iter().enumerate().map(frame).collect())
}

/// A stream of 32-bit floats, low byte first, widened.
fn read_stream(path: &Path) -> Result<Vec<f64>, String> {
    let bytes = fs::read(path).map_err(|error| format!("{}: {error}", path.display()))?;
    match bytes.as_chunks::<4>() {
        (floats, []) => Ok(floats
            .iter()
            .map(|float| f64::from(f32::from_le_bytes(*float)))
            .collect()),
        _ => Err(format!("{}: not a stream of floats", path.display())),
    }
}
