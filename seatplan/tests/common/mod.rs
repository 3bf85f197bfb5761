//! Runs of the program in a folder of their own.
#![allow(dead_code)]
use std::fs;
use std::path::{Path, PathBuf};
use std::process::Command;
use std::sync::atomic::{AtomicU32, Ordering};

static COUNT: AtomicU32 = AtomicU32::new(0);

/// A folder that goes with the test.
pub struct Folder(PathBuf);

/// What a run said.
#[derive(Debug)]
pub struct Said {
    pub status: i32,
    pub table: String,
    pub errors: String,
}

impl Folder {
    pub fn new() -> Folder {
        let name = format!("seatplan-test-{}-{}", std::process::id(), COUNT.fetch_add(1, Ordering::Relaxed));
        let path = std::env::temp_dir().join(name);
        fs::create_dir(&path).unwrap();
        Folder(path)
    }

    pub fn path(&self) -> &Path {
        &self.0
    }

    pub fn with(self, file: &str, content: impl AsRef<[u8]>) -> Folder {
        fs::write(self.0.join(file), content).unwrap();
        self
    }

    /// The names of its files.
    pub fn files(&self) -> Vec<String> {
        let mut names: Vec<String> =
            fs::read_dir(&self.0).unwrap().map(|entry| entry.unwrap().file_name().into_string().unwrap()).collect();
        names.sort();
        names
    }

    pub fn read(&self, file: &str) -> Vec<u8> {
        fs::read(self.0.join(file)).unwrap()
    }

    /// The program, run here.
    pub fn run(&self, arguments: &[&str]) -> Said {
        let done = Command::new(env!("CARGO_BIN_EXE_seatplan")).args(arguments).current_dir(&self.0).output().unwrap();
        let text = |bytes| String::from_utf8(bytes).unwrap();
        Said { status: done.status.code().unwrap(), table: text(done.stdout), errors: text(done.stderr) }
    }
}

impl Drop for Folder {
    fn drop(&mut self) {
        fs::remove_dir_all(&self.0).unwrap();
    }
}

/// Document 01's example as a plan, and its seats.
pub const PLAN: &str = "reach,0.5\nsteps,2\ndeck,Main\nvertex,0,0,1\nvertex,4,0,1\nvertex,4,4,3\nvertex,0,4,3\npolygon,0,1,2,3\n";
pub const SEATS: &str = "A1,1,1\nA2,5,5\nA3,-0.5,2\n";

pub fn example() -> Folder {
    Folder::new().with("plan.csv", PLAN).with("seats.csv", SEATS)
}
