//! Runs of the product's programs, and the `name=value` lines that they print.

use std::env;
use std::fs;
use std::path::{Path, PathBuf};
use std::process::{self, Command};
use std::sync::atomic::{AtomicUsize, Ordering};

/// How often a program was run: each run has a folder of its own.
static RUNS: AtomicUsize = AtomicUsize::new(0);

pub type Lines = Vec<(String, String)>;

/// The program that `tools/build` has built.
fn program(name: &str) -> PathBuf {
    let here = Path::new(env!("CARGO_MANIFEST_DIR"));
    let repo = here.join(env::var_os("RATTLE_REPO").unwrap_or_else(|| "..".into()));
    repo.join("target/bin").join(name)
}

/// What a program prints for a level and these files, which it is given by their names.
pub fn run(name: &str, level: &str, files: &[(&str, &[u8])]) -> Lines {
    let number = RUNS.fetch_add(1, Ordering::Relaxed);
    let folder = env::temp_dir().join(format!("{name}_{}_{number}", process::id()));
    fs::create_dir_all(&folder).expect("a folder for the files");
    for (file, bytes) in files {
        fs::write(folder.join(file), bytes).expect("a file of the run");
    }
    let output = Command::new(program(name))
        .arg(level)
        .args(files.iter().map(|(file, _)| file))
        .current_dir(&folder)
        .output()
        .expect("the program runs");
    fs::remove_dir_all(&folder).expect("the folder goes");
    assert!(output.status.success(), "{output:?}");
    let printed = String::from_utf8(output.stdout).expect("text");
    let pairs = printed.lines().filter_map(|line| line.split_once('='));
    pairs.map(|(name, value)| (name.to_string(), value.to_string())).collect()
}

pub fn lines(expected: &[(&str, String)]) -> Lines {
    expected.iter().map(|(name, value)| (name.to_string(), value.clone())).collect()
}

/// The four lines of a refusal that names no part of a key.
pub fn refusal(number: u8, layer: &str, place: usize) -> Lines {
    lines(&[
        ("answer", number.to_string()),
        ("layer", layer.to_string()),
        ("part", "none".to_string()),
        ("place", place.to_string()),
    ])
}
