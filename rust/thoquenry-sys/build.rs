//! Finds the archive libthoquenry.a: in the folder that THOQUENRY_LIB names; or else where scripts/build-library puts it, in target/lib of the
//! clone that this crate stands in; or else where pkg-config says that it is installed.

use std::path::{Path, PathBuf};
use std::process::{exit, Command};
use std::{env, fs};

const ARCHIVE: &str = "libthoquenry.a";

/// The folder that pkg-config names, where both are installed.
fn installed() -> Option<PathBuf> {
    let words = ["--variable=libdir", "thoquenry"];
    let answer = Command::new("pkg-config").args(words).output().ok()?;
    let folder = String::from_utf8(answer.stdout).ok()?;
    let folder = folder.trim();
    (answer.status.success() && !folder.is_empty()).then(|| PathBuf::from(folder))
}

fn main() {
    println!("cargo:rerun-if-env-changed=THOQUENRY_LIB");
    let clone = Path::new(env!("CARGO_MANIFEST_DIR")).join("../../target/lib");
    let folders: Vec<PathBuf> = match env::var_os("THOQUENRY_LIB") {
        Some(named) => vec![named.into()],
        None => [Some(clone), installed()].into_iter().flatten().collect(),
    };
    let found = folders.iter().find(|folder| folder.join(ARCHIVE).is_file());
    match found.and_then(|folder| fs::canonicalize(folder).ok()) {
        Some(folder) => {
            let folder = folder.display();
            println!("cargo:rustc-link-search=native={folder}");
            println!("cargo:rerun-if-changed={folder}/{ARCHIVE}");
        }
        None => missing(&folders),
    }
}

/// Says what to do about it.
fn missing(folders: &[PathBuf]) {
    eprintln!("{ARCHIVE} was looked for and not found in");
    for folder in folders {
        eprintln!("    {}", folder.display());
    }
    eprintln!("Build it with scripts/build-library in a clone, or name the folder that has it by THOQUENRY_LIB.");
    exit(1);
}
