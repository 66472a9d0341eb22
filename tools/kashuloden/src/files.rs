//! How output is written: all of it, or a fault.

use crate::fault::Fault;
use std::ffi::{OsStr, OsString};
use std::fs::{self, File};
use std::io::{stdout, Write};
use std::path::{Path, PathBuf};

/// Writes to standard output.
pub fn print(bytes: &[u8]) -> Result<(), Fault> {
    let mut out = stdout().lock();
    let written = out.write_all(bytes).and_then(|()| out.flush());
    written.map_err(|error| Fault::failed(format!("standard output: {error}")))
}

/// Writes beside a file, and puts that in its place when it is whole.
pub fn write_file(path: &OsStr, bytes: &[u8]) -> Result<(), Fault> {
    let failed = |words: &str| Fault::failed(format!("{}: {words}", path.to_string_lossy()));
    let target = fs::canonicalize(path).unwrap_or_else(|_| PathBuf::from(path));
    let name = match target.file_name() {
        Some(name) if !target.exists() || target.is_file() => name,
        _ => return Err(failed("not a plain file; the name of one is expected")),
    };
    let mut beside = OsString::from(".");
    beside.push(name);
    beside.push(format!(".{}", std::process::id()));
    let beside = target.with_file_name(beside);
    let put = write_through(&beside, bytes).and_then(|()| fs::rename(&beside, &target));
    put.map_err(|error| {
        let _ = fs::remove_file(&beside);
        failed(&error.to_string())
    })
}

fn write_through(path: &Path, bytes: &[u8]) -> std::io::Result<()> {
    let mut file = File::create(path)?;
    file.write_all(bytes)?;
    file.sync_all()
}
