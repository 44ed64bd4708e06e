//! A file that is written whole or not at all.

use std::fs::{self, File, OpenOptions, Permissions};
use std::io::{self, ErrorKind, Write};
use std::path::{Path, PathBuf};

/// How many names are tried for the file beside.
const TRIES: u32 = 100;

/// Makes the file, or replaces what is in it. The bytes are written to another
/// file of the same folder, which then takes its name; where that fails, the
/// file is as it was. A link stays, and so do the permissions.
pub fn write(path: &Path, bytes: &[u8]) -> io::Result<()> {
    let (path, permissions) = place(path)?;
    let (beside, file) = beside(&path)?;
    let done = fill(file, bytes, permissions).and_then(|()| fs::rename(&beside, &path));
    if done.is_err() {
        let _ = fs::remove_file(&beside);
    }
    done
}

/// Where the file is or will be, and the permissions that it has. One that may
/// not be written is not replaced either.
fn place(path: &Path) -> io::Result<(PathBuf, Option<Permissions>)> {
    let found = match fs::metadata(path) {
        Err(error) if error.kind() == ErrorKind::NotFound => return Ok((path.into(), None)),
        found => found?,
    };
    if !found.is_file() {
        return Err(io::Error::other("not a regular file"));
    }
    OpenOptions::new().write(true).open(path)?;
    Ok((fs::canonicalize(path)?, Some(found.permissions())))
}

/// A new file in the same folder, and where it is.
fn beside(path: &Path) -> io::Result<(PathBuf, File)> {
    if path.file_name().is_none() {
        return Err(ErrorKind::NotFound.into());
    }
    let process = std::process::id();
    let mut tries = 1;
    loop {
        let beside = path.with_file_name(format!(".convert-{process}-{tries}"));
        match OpenOptions::new()
            .write(true)
            .create_new(true)
            .open(&beside)
        {
            Ok(file) => return Ok((beside, file)),
            Err(error) if error.kind() == ErrorKind::AlreadyExists && tries < TRIES => tries += 1,
            Err(error) => return Err(error),
        }
    }
}

/// Writes the bytes down to the disk.
fn fill(mut file: File, bytes: &[u8], permissions: Option<Permissions>) -> io::Result<()> {
    file.write_all(bytes)?;
    if let Some(permissions) = permissions {
        file.set_permissions(permissions)?;
    }
    file.sync_all()
}
