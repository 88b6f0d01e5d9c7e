//! Files that a crash leaves whole.

use std::fs::{File, OpenOptions, rename};
use std::io::{self, Error, Write};
use std::path::Path;

/// Opens a file for writing at its end.
pub fn open_appended(path: &Path) -> io::Result<File> {
    OpenOptions::new().create(true).append(true).open(path)
}

/// Cuts a file to so many bytes. It must have them.
pub fn cut(file: &File, length: u64) -> io::Result<()> {
    if file.metadata()?.len() < length {
        return Err(Error::other("the samples file has lost what was saved"));
    }
    file.set_len(length)
}

/// Writes at the end of a file, and has the bytes on the disk before it returns.
pub fn append(file: &mut File, bytes: &[u8]) -> io::Result<()> {
    file.write_all(bytes)?;
    file.sync_all()
}

/// Puts a file into the place of another at once: written under another name, brought to the disk, renamed, and the folder brought to the disk.
pub fn replace(folder: &Path, name: &str, bytes: &[u8]) -> io::Result<()> {
    let beside = folder.join(format!("{name}.tmp"));
    append(&mut File::create(&beside)?, bytes)?;
    rename(&beside, folder.join(name))?;
    File::open(folder)?.sync_all()
}
