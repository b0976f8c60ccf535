//! Finds libmirror.a and links it.

use std::env::var_os;
use std::path::{Path, PathBuf};
use std::process::{exit, Command};

/// What is looked for.
const ARCHIVE: &str = "libmirror.a";

/// The release that it has to be of.
const RELEASE: &str = env!("CARGO_PKG_VERSION");

fn main() {
    for name in ["MIRROR_LIB_DIR", "PKG_CONFIG_PATH", "PKG_CONFIG_LIBDIR"] {
        println!("cargo:rerun-if-env-changed={name}");
    }
    // docs.rs has no library, and documents need none.
    if var_os("DOCS_RS").is_some() {
        return;
    }
    let Some(folder) = find() else {
        eprintln!("{}", what_to_do());
        exit(1);
    };
    println!("cargo:rustc-link-search=native={}", folder.display());
    println!("cargo:rustc-link-lib=static=mirror");
}

/// The folder that has the archive. If one is named, no other is looked at.
fn find() -> Option<PathBuf> {
    match var_os("MIRROR_LIB_DIR") {
        Some(folder) => with_archive(folder.into()),
        None => in_repository().or_else(installed),
    }
}

/// The folder as an absolute path, if the archive is in it. Cargo runs this
/// program again when the archive changes.
fn with_archive(folder: PathBuf) -> Option<PathBuf> {
    let archive = folder.join(ARCHIVE);
    println!("cargo:rerun-if-changed={}", archive.display());
    archive.is_file().then(|| folder.canonicalize().ok())?
}

/// Where `scripts/library mirror` puts the archive. Outside the repository it is
/// not looked for: for a file that is never there, cargo would build this crate
/// anew every time.
fn in_repository() -> Option<PathBuf> {
    let is_repository = Path::new("../include/mirror.h").is_file();
    is_repository.then(|| with_archive("../target/staticlib".into()))?
}

/// Where the library is installed, if it is of this release.
fn installed() -> Option<PathBuf> {
    pkg_config(&format!("--exact-version={RELEASE}"))?;
    with_archive(pkg_config("--variable=libdir")?.into())
}

/// What `pkg-config` prints, if it succeeds.
fn pkg_config(option: &str) -> Option<String> {
    let run = Command::new("pkg-config").args([option, "mirror"]).output();
    let run = run.ok().filter(|run| run.status.success())?;
    Some(String::from_utf8(run.stdout).ok()?.trim().to_string())
}

fn what_to_do() -> String {
    let what_is_wrong = match var_os("MIRROR_LIB_DIR") {
        Some(folder) => format!("There is no {ARCHIVE} in {folder:?}, which MIRROR_LIB_DIR names."),
        None => format!("There is no {ARCHIVE} of release {RELEASE}."),
    };
    format!(
        "{what_is_wrong} Do one of these:
- set MIRROR_LIB_DIR to the folder that has {ARCHIVE}, as an absolute path;
- in the repository, run `scripts/library mirror` at its root, and leave MIRROR_LIB_DIR unset;
- install the library so that `pkg-config --exact-version={RELEASE} mirror` succeeds, and leave
  MIRROR_LIB_DIR unset (PKG_CONFIG_PATH names the folder of mirror.pc if it is not a usual one)."
    )
}
