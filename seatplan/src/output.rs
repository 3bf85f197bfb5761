//! Files that are written whole or not at all.
use std::fs;
use std::io;
use std::path::{Path, PathBuf};
use std::process;

use crate::Error;

/// Writes every file into one beside it, and only when all are written gives them their names. Where one cannot be written, those not yet
/// renamed are removed, so that each name has its old content or the new one, whole.
pub fn write_whole(files: &[(PathBuf, Vec<u8>)]) -> Result<(), Error> {
    let targets: Vec<PathBuf> = files.iter().map(|(path, _)| target(path)).collect();
    let beside: Vec<PathBuf> =
        targets.iter().enumerate().map(|(i, path)| path.with_file_name(format!(".seatplan-{}-{i}", process::id()))).collect();
    let attempt = || {
        for (i, (path, bytes)) in files.iter().enumerate() {
            write_new(&targets[i], &beside[i], bytes).map_err(|error| Error::file(&path.display().to_string(), error))?;
        }
        for (i, (path, _)) in files.iter().enumerate() {
            fs::rename(&beside[i], &targets[i]).map_err(|error| Error::file(&path.display().to_string(), error))?;
        }
        Ok(())
    };
    let written = attempt();
    if written.is_err() {
        beside.iter().for_each(|path| drop(fs::remove_file(path)));
    }
    written
}

fn write_new(target: &Path, beside: &Path, bytes: &[u8]) -> io::Result<()> {
    if target.exists() && !target.is_file() {
        return Err(io::Error::new(io::ErrorKind::Other, "this is no plain file, and is not written over"));
    }
    fs::write(beside, bytes)
}

/// What a path leads to: a link stays, and its file is written.
fn target(path: &Path) -> PathBuf {
    fs::canonicalize(path).unwrap_or(path.to_path_buf())
}
