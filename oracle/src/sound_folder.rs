//! Sound files that other programs wrote: those in a folder.

use std::path::{Path, PathBuf};

/// At least so many, and none longer: each of their bits is flipped.
const LEAST: usize = 3;
const MOST_BYTES: usize = 2_000;

/// A file by its name.
pub type Named = (String, Vec<u8>);

/// The files of the folder ORACLE_SOUNDS whose names end in .wav, in the order of their names; none where there is no such folder.
pub fn files() -> Result<Vec<Named>, String> {
    let folder = std::env::var_os("ORACLE_SOUNDS").ok_or("ORACLE_SOUNDS names no folder")?;
    if !Path::new(&folder).is_dir() {
        println!(
            "the sound files of other programs are left out: there is no folder {}",
            folder.display()
        );
        return Ok(Vec::new());
    }
    let mut paths = paths(Path::new(&folder))?;
    paths.retain(|path| path.extension().is_some_and(|end| end == "wav"));
    paths.sort();
    match paths.len() {
        LEAST.. => paths.iter().map(|path| file(path)).collect(),
        count => Err(format!(
            "{}: {count} sound files, not {LEAST}",
            folder.display()
        )),
    }
}

fn paths(folder: &Path) -> Result<Vec<PathBuf>, String> {
    let entries = std::fs::read_dir(folder).and_then(|entries| {
        let paths = entries.map(|entry| entry.map(|entry| entry.path()));
        paths.collect()
    });
    entries.map_err(|error| format!("{}: {error}", folder.display()))
}

fn file(path: &Path) -> Result<Named, String> {
    let bytes = std::fs::read(path).map_err(|error| format!("{}: {error}", path.display()))?;
    let name = path.file_name().unwrap_or_default().display().to_string();
    match bytes.len() {
        ..=MOST_BYTES => Ok((name, bytes)),
        length => Err(format!("{name}: {length} bytes, more than {MOST_BYTES}")),
    }
}
