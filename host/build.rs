//! Links liblin_host.a, which `tools/archive` makes of the proved crates: that is
//! run here unless the archive is newer than all that it is made of. The variable
//! LIN_HOST_DIR names a folder whose archive is linked as it is. The tests are told
//! the archive's folder as LIN_HOST_ARCHIVE_DIR.

use std::{
    collections::BTreeSet,
    env, fs,
    path::{self, Path, PathBuf},
    process::Command,
    time::SystemTime,
};

fn main() {
    println!("cargo:rerun-if-env-changed=LIN_HOST_DIR");
    let dir = match env::var_os("LIN_HOST_DIR") {
        Some(dir) => PathBuf::from(dir),
        None => built(),
    };
    // the linker may be run in another folder, as for a crate that depends on this one
    let dir = path::absolute(dir).expect("a folder");
    let archive = dir.join("liblin_host.a");
    println!("cargo:rerun-if-changed={}", archive.display());
    println!("cargo:rustc-link-search=native={}", dir.display());
    println!("cargo:rustc-link-lib=static=lin_host");
    println!("cargo:rustc-env=LIN_HOST_ARCHIVE_DIR={}", dir.display());
}

/// The folder of the archive, once it is there and new.
fn built() -> PathBuf {
    let here = env::var_os("CARGO_MANIFEST_DIR").expect("cargo sets CARGO_MANIFEST_DIR");
    let root = Path::new(&here).join("..");
    let list = root.join("crates.txt");
    let crates = reached(
        &fs::read_to_string(&list).expect("crates.txt"),
        "lin_host_c",
    );
    let mut parts = vec![list, root.join("tools/archive")];
    for name in &crates {
        // not its out/, which each check changes
        let folders =
            ["src", "specs", "proofs"].map(|part| root.join("crates").join(name).join(part));
        parts.extend(folders.into_iter().filter(|folder| folder.exists()));
    }
    for part in &parts {
        println!("cargo:rerun-if-changed={}", part.display());
    }
    let dir = root.join("target/staticlib");
    let made = changed(&dir.join("liblin_host.a"));
    if made.is_none() || parts.iter().any(|part| changed(part) > made) {
        make(&root);
    }
    dir
}

/// A crate and all that it depends on, by the lines `NAME: DEP DEP ..` and
/// `NAME staticlib: DEP ..`.
fn reached(list: &str, name: &str) -> BTreeSet<String> {
    let mut all = BTreeSet::new();
    let mut left = vec![name.to_string()];
    while let Some(name) = left.pop() {
        let lines = list.lines().filter_map(|line| line.split_once(':'));
        for (_, deps) in lines.filter(|(of, _)| of.split_whitespace().next() == Some(&name)) {
            left.extend(deps.split_whitespace().map(str::to_string));
            all.insert(name.clone());
        }
    }
    all
}

/// When a file, or the latest file of a folder, was changed.
fn changed(path: &Path) -> Option<SystemTime> {
    let Ok(entries) = fs::read_dir(path) else {
        return fs::metadata(path).ok()?.modified().ok();
    };
    let entries = entries.filter_map(Result::ok);
    entries.filter_map(|entry| changed(&entry.path())).max()
}

fn make(root: &Path) {
    let mut archive = Command::new("bash");
    archive.arg("tools/archive").current_dir(root);
    let done = archive
        .output()
        .expect("bash, to prove and build lin_host_c");
    let said = [done.stdout, done.stderr].concat();
    let said = String::from_utf8_lossy(&said);
    assert!(done.status.success(), "tools/archive: {said}");
}
