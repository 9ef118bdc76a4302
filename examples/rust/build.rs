//! Links the archive of `crates/tower_c`, with the feature `images` that of `crates/tower_images`, and with `threads` that
//! of `crates/tower_threads`.
//!
//! If `TOWER_LIB` names a folder, they are that folder's. Otherwise, in a release, they are those in its `lib/`.
//! Otherwise they are the repository's: the one that was made there if it is of the present sources, or that of
//! `prebuilt/` likewise, or one of these that is older than its sources, with a warning. This script makes and proves
//! nothing: an editor that opens the folder runs it.
use std::path::{Path, PathBuf};
use std::process::{Command, Stdio};
use std::{env, fs};

/// The crates whose archives are linked.
fn crates() -> Vec<&'static str> {
    let with_images = env::var_os("CARGO_FEATURE_IMAGES").is_some();
    let with_threads = env::var_os("CARGO_FEATURE_THREADS").is_some();
    ["tower_c"]
        .into_iter()
        .chain(with_images.then_some("tower_images"))
        .chain(with_threads.then_some("tower_threads"))
        .collect()
}

/// Each folder whose files a crate's archive is built from, the crate's own with what is made there, and the list of
/// crates.
fn sources(root: &Path, name: &str) -> Vec<PathBuf> {
    let below = Command::new(root.join("c/below")).arg(name).output();
    let names = String::from_utf8(below.expect("c/below runs").stdout).expect("names of crates");
    assert!(!names.is_empty(), "c/below names no crate");
    let crates = names.lines().map(|name| root.join("crates").join(name));
    let parts = crates.flat_map(|at| ["src", "specs", "proofs"].map(|part| at.join(part)));
    parts
        .filter(|part| part.exists())
        .chain([root.join("crates").join(name), root.join("crates.txt")])
        .collect()
}

/// Whether a shell's command at the repository's top ends with status 0.
fn succeeds(root: &Path, command: &str) -> bool {
    let ended = Command::new("sh")
        .args(["-c", command])
        .current_dir(root)
        .stdout(Stdio::null())
        .stderr(Stdio::null())
        .status();
    ended.is_ok_and(|status| status.success())
}

/// A crate's archive in the repository, if there is one.
fn of_repository(root: &Path, name: &str, file: &str) -> Option<PathBuf> {
    for source in sources(root, name) {
        println!("cargo::rerun-if-changed={}", source.display());
    }
    let made = root.join("crates").join(name).join("out").join(file);
    let prebuilt = root.join("prebuilt").join(file);
    // (`make -q` only asks)
    let made_is_of_these = format!("make -s -q -C c ../crates/{name}/out/{file}");
    let prebuilt_is_of_these =
        format!("root=$PWD name={name}; . tools/program.sh; is_of \"$(sources)\" \"$prebuilt\"");
    if made.exists() && succeeds(root, &made_is_of_these) {
        return Some(made);
    }
    if prebuilt.exists() && succeeds(root, &prebuilt_is_of_these) {
        return Some(prebuilt);
    }
    let older = [made, prebuilt].into_iter().find(|it| it.exists())?;
    println!("cargo::warning={file} is older than its sources; `make -C c` makes it again");
    Some(older)
}

/// The archive that is linked, if there is one.
fn archive(name: &str, file: &str) -> Option<PathBuf> {
    if let Some(named) = env::var_os("TOWER_LIB") {
        return Some(PathBuf::from(named).join(file)).filter(|it| it.exists());
    }
    let own = PathBuf::from(env::var_os("CARGO_MANIFEST_DIR").expect("cargo sets it"));
    let root = own.join("../..");
    let released = root.join("lib").join(file);
    if released.exists() {
        return Some(released);
    }
    let is_repository = root.join("c/below").exists();
    is_repository
        .then(|| of_repository(&root, name, file))
        .flatten()
}

/// Links a crate's archive. If there is none, the build fails with one line.
fn links(name: &str) {
    let file = format!("lib{name}.a");
    let Some(found) = archive(name, &file) else {
        println!(
            "cargo::error=there is no {file}: TOWER_LIB=FOLDER names its folder; in the repository `make -C c` makes it"
        );
        return;
    };
    let found = fs::canonicalize(&found).unwrap_or(found);
    let folder = found.parent().expect("a file is in a folder");
    println!("cargo::rerun-if-changed={}", found.display());
    println!("cargo::rustc-link-search=native={}", folder.display());
    println!("cargo::rustc-link-lib=static={name}");
}

fn main() {
    println!("cargo::rerun-if-env-changed=TOWER_LIB");
    crates().into_iter().for_each(links);
}
