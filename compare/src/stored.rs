//! The stored answers held against the Rust's.
use std::panic::{catch_unwind, AssertUnwindSafe};
use std::path::{Path, PathBuf};

use crate::cases::{answer_lines, read_case, Case};
use crate::check::{expected, Ship};
use crate::questions::file_passes;

/// The folders of the two programs, and whether each has the run's calls or the others.
pub const FOLDERS: [(&str, bool); 2] = [("seats_answers", true), ("other_answers", false)];

pub fn folder(name: &str) -> PathBuf {
    Path::new(env!("CARGO_MANIFEST_DIR")).join("../crates").join(name)
}

/// Answers, each of a line and of lines for its entries, which begin with a space.
fn answers(stdout: &str) -> Vec<String> {
    let mut answers: Vec<String> = vec![];
    for line in stdout.split_inclusive('\n') {
        match answers.last_mut() {
            Some(answer) if line.starts_with(' ') => *answer += line,
            _ => answers.push(line.to_string()),
        }
    }
    answers
}

/// The cases of a folder with their answers; or what is wrong with its files.
fn cases(name: &str, of_run: bool) -> Result<Vec<(Case, String)>, String> {
    let path = |file: &str| folder(name).join(file);
    let stdin = std::fs::read(path("stdin")).map_err(|e| format!("crates/{name}/stdin: {e}"))?;
    let stdout = std::fs::read_to_string(path("stdout")).map_err(|e| format!("crates/{name}/stdout: {e}"))?;
    let (mut cases, mut rest) = (vec![], &stdin[..]);
    while !rest.is_empty() {
        let (case, after) =
            read_case(rest, of_run).ok_or(format!("crates/{name}/stdin: {} bytes before its end is no case", rest.len()))?;
        cases.push(case);
        rest = after;
    }
    let answers = answers(&stdout);
    if cases.len() != answers.len() {
        return Err(format!("crates/{name}: {} cases and {} answers", cases.len(), answers.len()));
    }
    Ok(cases.into_iter().zip(answers).collect())
}

/// How many stored cases there are. One whose answer is not the Rust's is told to `differs`.
pub fn check(differs: &mut dyn FnMut(&str)) -> Result<usize, String> {
    let mut count = 0;
    for (name, of_run) in FOLDERS {
        for (Case { file, asked }, answer) in cases(name, of_run)? {
            let lines = catch_unwind(AssertUnwindSafe(|| {
                let passes = file_passes(&file);
                let expected = expected(&mut Ship::of_file(file, passes), &asked);
                answer_lines(&asked.call, &expected.answer)
            }));
            if lines.as_ref().ok() != Some(&answer) {
                differs(&format!("crates/{name}: {asked:?}\nstored   {answer}\nexpected {lines:?}"));
            }
            count += 1;
        }
    }
    Ok(count)
}
