//! The vector files, as docs/VECTORS.md describes them: tables, packets and questions, and under each question its answer.

pub mod asked;
pub mod run;
pub mod script;
pub mod spelled;
pub mod text;

use std::fs::{read, read_dir};
use std::path::{Path, PathBuf};

/// A vector file's name and text.
pub type Script = (String, Vec<u8>);

/// All vector files, by name.
pub fn scripts() -> Vec<Script> {
    let folder = Path::new(env!("CARGO_MANIFEST_DIR")).join("../crates/vectors/data");
    let entries = read_dir(&folder).unwrap_or_else(|error| panic!("{}: {error}", folder.display()));
    let mut paths: Vec<PathBuf> = entries.map(|entry| entry.expect("an entry is read").path()).collect();
    paths.retain(|path| path.extension().is_some_and(|extension| extension == "txt"));
    paths.sort();
    paths.iter().map(|path| (name_of(path), text_of(path))).collect()
}

fn name_of(path: &Path) -> String {
    path.file_name().map(|name| name.to_string_lossy().into_owned()).unwrap_or_default()
}

fn text_of(path: &Path) -> Vec<u8> {
    read(path).unwrap_or_else(|error| panic!("{}: {error}", path.display()))
}
