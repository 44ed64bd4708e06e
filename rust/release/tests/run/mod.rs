//! Runs of a program, and the folders that they are in.

use std::fs;
use std::path::{Path, PathBuf};
use std::process::{Command, Output};

/// A finished run: its status, and what it printed.
#[derive(PartialEq, Eq, Debug)]
pub struct Run {
    pub status: i32,
    pub out: String,
    pub errors: String,
}

impl Run {
    pub fn of(mut command: Command) -> Run {
        let Output {
            status,
            stdout,
            stderr,
        } = command.output().unwrap();
        Run {
            status: status.code().expect("no signal"),
            out: String::from_utf8(stdout).unwrap(),
            errors: String::from_utf8(stderr).unwrap(),
        }
    }

    /// Printed this with this status, and no complaint.
    pub fn is(&self, status: i32, out: &str) {
        assert_eq!((self.status, self.out.as_str()), (status, out));
        assert_eq!(self.errors, "");
    }

    /// No answer, nothing printed, and one line of complaint.
    pub fn fails(&self, complaint: &str) {
        assert_eq!((self.status, self.out.as_str()), (2, ""));
        assert!(self.errors.contains(complaint), "{self:?}");
        let lines = self.errors.lines().count();
        assert!(lines == 1 && self.errors.ends_with('\n'), "{self:?}");
    }
}

/// A folder of its own for each test.
pub struct Folder(pub PathBuf);

impl Folder {
    pub fn new(name: &str) -> Folder {
        let path = Path::new(env!("CARGO_TARGET_TMPDIR")).join(name);
        fs::create_dir_all(&path).unwrap();
        Folder(path)
    }
}
