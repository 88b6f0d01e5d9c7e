//! A worker: renders a job of the announcement into the file `samples` (64-bit floats, low byte first) of a folder, frame by frame, and after each frame
//! puts the voice and the frames done into the file `state`. Ended at any moment and started again, it goes on from the last save: no
//! sample is lost, none is made or metered twice.

mod durable;
mod job;

use durable::{append, cut, open_appended, replace};
use job::{Frame, Job, read_job};
use kipawnore::{MOST_BYTES, Voice};
use std::error::Error;
use std::fs::{self, File};
use std::io::ErrorKind;
use std::path::{Path, PathBuf};
use std::process::ExitCode;

/// The state begins with the count of frames done; the voice's records follow.
const COUNT: usize = 8;

struct Worker {
    folder: PathBuf,
    samples: File,
    voice: Voice,
    done: u64,
}

impl Worker {
    /// Goes on from the last save, or begins where there is none. A state that cannot be used is an error: to begin afresh would be to bill twice.
    fn resume(folder: &Path, job: &Job) -> Result<Self, Box<dyn Error>> {
        let mut voice = Voice::open(job.configuration)?;
        let (mut done, mut how) = (0, "begins");
        match fs::read(folder.join("state")) {
            Ok(state) => {
                let (count, records) = state.split_first_chunk::<COUNT>().ok_or("a torn state")?;
                voice.restore(records)?;
                (done, how) = (u64::from_le_bytes(*count), "resumes");
            }
            Err(error) if error.kind() == ErrorKind::NotFound => {}
            Err(error) => return Err(error.into()),
        }
        if *voice.configuration() != job.configuration {
            return Err("the state is of another job".into());
        }
        let samples = open_appended(&folder.join("samples"))?;
        // Samples past the save were never metered: they are made again.
        cut(&samples, voice.meter() * size_of::<f64>() as u64)?;
        println!("{how} at sample {}", voice.meter());
        Ok(Self {
            folder: folder.to_path_buf(),
            samples,
            voice,
            done,
        })
    }

    /// Renders the next frame. Its samples are on the disk before the save that counts them.
    fn render(&mut self, frame: &Frame) -> Result<(), Box<dyn Error>> {
        let mut out = vec![0.0; self.voice.configuration().fperiod];
        let made = self
            .voice
            .whole_frame(frame.lf0, &frame.spectrum, &frame.lpf, &mut out, 0)?;
        let bytes: Vec<u8> = out[..made].iter().flat_map(|x| x.to_le_bytes()).collect();
        append(&mut self.samples, &bytes)?;
        self.done += 1;
        self.save()
    }

    fn save(&self) -> Result<(), Box<dyn Error>> {
        let mut state = [0; COUNT + MOST_BYTES];
        let (count, records) = state.split_at_mut(COUNT);
        count.copy_from_slice(&self.done.to_le_bytes());
        let length = COUNT + self.voice.save(records)?;
        Ok(replace(&self.folder, "state", &state[..length])?)
    }
}

fn work(data: &str, which: &str, folder: &str) -> Result<(), Box<dyn Error>> {
    let job = read_job(Path::new(data), which.parse()?)?;
    let mut worker = Worker::resume(Path::new(folder), &job)?;
    let done = usize::try_from(worker.done)?;
    for frame in job.frames.iter().skip(done) {
        worker.render(frame)?;
    }
    println!("done: meter {}", worker.voice.meter());
    Ok(())
}

fn main() -> ExitCode {
    let words: Vec<String> = std::env::args().skip(1).collect();
    let [data, which, folder] = &words[..] else {
        eprintln!("usage: worker DATA JOB FOLDER");
        return ExitCode::from(2);
    };
    match work(data, which, folder) {
        Ok(()) => ExitCode::SUCCESS,
        Err(error) => {
            eprintln!("worker: {error}");
            ExitCode::from(2)
        }
    }
}
