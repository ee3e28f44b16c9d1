//! Finds libexports.a, or builds it, and tells the linker.
//!
//! It is taken from the folder that DAMPFEATHER_LIB names. Where that is not set, it is the repository's own: `rt` builds it where it is missing or
//! older than the code that it is made from.
use std::path::{Path, PathBuf};
use std::process::Command;
use std::time::SystemTime;

const ARCHIVE: &str = "libexports.a";

fn main() {
    println!("cargo:rerun-if-env-changed=DAMPFEATHER_LIB");
    let folder = match std::env::var_os("DAMPFEATHER_LIB") {
        Some(folder) => PathBuf::from(folder),
        None => own(Path::new(&std::env::var_os("CARGO_MANIFEST_DIR").unwrap()).parent().unwrap()),
    };
    let archive = folder.join(ARCHIVE);
    if !archive.is_file() {
        fail(&format!(
            "there is no {}: run `rt lib` in the repository's crates/exports, or set DAMPFEATHER_LIB to the folder that has it",
            archive.display()
        ));
    }
    println!("cargo:rerun-if-changed={}", archive.display());
    println!("cargo:rustc-link-search=native={}", folder.display());
    println!("cargo:rustc-link-lib=static=exports");
}

fn fail(why: &str) -> ! {
    eprintln!("dampfeather: {why}");
    std::process::exit(1)
}

/// The folder of the repository's archive, which is built if need be and if `rt` is there.
fn own(root: &Path) -> PathBuf {
    let exports = root.join("crates/exports");
    let folder = exports.join("out");
    let changed = changed(root);
    let built = std::fs::metadata(folder.join(ARCHIVE)).and_then(|m| m.modified()).ok();
    if built.is_some_and(|built| changed.is_none_or(|changed| changed <= built)) {
        return folder;
    }
    match Command::new("rt").arg("lib").current_dir(exports).output() {
        Ok(run) if run.status.success() => {}
        Ok(run) => {
            let told = [run.stdout, run.stderr].concat();
            fail(&format!("`rt lib` in crates/exports failed:\n{}", String::from_utf8_lossy(&told)))
        }
        Err(_) if built.is_some() => {
            println!("cargo:warning={ARCHIVE} is older than crates/, and `rt` is not on the PATH to build it anew");
            println!("cargo:rerun-if-env-changed=PATH");
        }
        // main says what to run
        Err(_) => {}
    }
    folder
}

/// When the code was last changed that the archive is made from: that of `exports` and of all that crates.txt says it depends on. Cargo watches it
/// too.
fn changed(root: &Path) -> Option<SystemTime> {
    let list = std::fs::read_to_string(root.join("crates.txt")).unwrap_or_default();
    let mut names = vec!["exports"];
    let mut last = None;
    let mut at = 0;
    while let Some(&name) = names.get(at) {
        at += 1;
        let code = root.join("crates").join(name).join("src");
        // libraries of the toolchain are no folder here
        if code.is_dir() {
            println!("cargo:rerun-if-changed={}", code.display());
            last = last.max(newest(&code));
        }
        for line in list.lines() {
            // a word behind the name, as in `exports staticlib:`, says what kind of crate it is
            if let Some((_, below)) = line.split_once(':').filter(|(above, _)| above.split_whitespace().next() == Some(name)) {
                names.extend(below.split_whitespace().filter(|b| !names.contains(b)).collect::<Vec<_>>());
            }
        }
    }
    last
}

fn newest(path: &Path) -> Option<SystemTime> {
    let own = std::fs::metadata(path).and_then(|m| m.modified()).ok();
    let within = std::fs::read_dir(path).into_iter().flatten().flatten();
    within.map(|entry| newest(&entry.path())).max().flatten().max(own)
}
