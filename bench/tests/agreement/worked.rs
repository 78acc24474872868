//! The repository's worked scripts, with what they print.

use std::fs;
use std::path::{Path, PathBuf};

/// A script and its output.
pub struct Row {
    pub name: String,
    pub script: String,
    pub output: String,
}

/// The top of the repository.
pub fn top() -> PathBuf {
    Path::new(env!("CARGO_MANIFEST_DIR")).join("..")
}

/// The scripts `NAME.script` of a folder, each with its `NAME.out`.
pub fn scripts_in(folder: &Path) -> Vec<Row> {
    let mut rows = Vec::new();
    for path in files(folder, "script") {
        rows.push(Row {
            name: path.display().to_string(),
            script: read(&path),
            output: read(&path.with_extension("out")),
        });
    }
    rows
}

/// The files of a folder with this extension, by name.
fn files(folder: &Path, extension: &str) -> Vec<PathBuf> {
    let entries = fs::read_dir(folder).unwrap_or_else(|error| panic!("{folder:?}: {error}"));
    let mut paths: Vec<PathBuf> = entries
        .map(|entry| entry.expect("the folder can be read").path())
        .filter(|path| path.extension().is_some_and(|found| found == extension))
        .collect();
    paths.sort();
    paths
}

pub fn read(path: &Path) -> String {
    fs::read_to_string(path).unwrap_or_else(|error| panic!("{path:?}: {error}"))
}
