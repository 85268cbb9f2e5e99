// Makes the static library with `rt`, and links it as `dos33`.
//
// `rt lib` in crates/host names it after its crate, libhost.a; here it is libdos33.a.
// DOS33_LIB_DIR names a folder with a library that is made already, under either name; `rt` is not asked for then.
use std::env;
use std::fs;
use std::io::ErrorKind;
use std::path::{Path, PathBuf};
use std::process::{exit, Command};

const OURS: &str = "libdos33.a";
const MADE: &str = "libhost.a";

fn stop(message: &str) -> ! {
    eprintln!("dos33: {message}");
    exit(1)
}

// What the library is made of: the parts of each crate, and not what `rt` keeps beside them.
fn parts(top: &Path) -> Vec<PathBuf> {
    let crates = fs::read_dir(top.join("crates")).map(|d| d.flatten().map(|e| e.path()).collect());
    let mut found = vec![top.join("crates.txt")];
    for folder in crates.unwrap_or_else(|_| Vec::new()) {
        found.extend(["src", "specs", "proofs"].map(|p| folder.join(p)).into_iter().filter(|p| p.is_dir()));
    }
    found
}

// The library, made by `rt lib` in the folder of the crate `host`.
fn made(top: &Path) -> PathBuf {
    if !top.join("crates.txt").is_file() {
        stop(&format!(
            "{} has no crates.txt. This crate stands in the folder `host` of the repository, beside `crates`. \
             Put it back there, or set DOS33_LIB_DIR to a folder with {OURS} or {MADE}.",
            top.display()
        ));
    }
    for part in parts(top) {
        println!("cargo:rerun-if-changed={}", part.display());
    }
    let folder = top.join("crates").join("host");
    let answer = Command::new("rt").arg("lib").current_dir(&folder).output();
    match answer {
        Err(e) if e.kind() == ErrorKind::NotFound => stop(&format!(
            "the program `rt` of the Rattle kit is not on the PATH. It makes {MADE} (`rt lib` in crates/host). \
             Install the kit, or set DOS33_LIB_DIR to a folder with {OURS} or {MADE}."
        )),
        Err(e) => stop(&format!("`rt lib` could not be started: {e}")),
        Ok(o) if !o.status.success() => stop(&format!(
            "`rt lib` failed in {} ({}):\n{}{}",
            folder.display(),
            o.status,
            String::from_utf8_lossy(&o.stdout),
            String::from_utf8_lossy(&o.stderr)
        )),
        Ok(_) => folder.join("out").join(MADE),
    }
}

// The library that is handed in; it is watched.
fn handed(folder: &Path) -> PathBuf {
    let library = [OURS, MADE]
        .map(|name| folder.join(name))
        .into_iter()
        .find(|l| l.is_file());
    match library {
        Some(library) => {
            println!("cargo:rerun-if-changed={}", library.display());
            library
        }
        None => stop(&format!(
            "{} (DOS33_LIB_DIR) has neither {OURS} nor {MADE}. \
             `rt lib` in crates/host makes crates/host/out/{MADE}.",
            folder.display()
        )),
    }
}

fn main() {
    println!("cargo:rerun-if-changed=build.rs");
    println!("cargo:rerun-if-env-changed=DOS33_LIB_DIR");
    let here = PathBuf::from(env::var_os("CARGO_MANIFEST_DIR").unwrap_or_default());
    let out = PathBuf::from(env::var_os("OUT_DIR").unwrap_or_default());
    // One that is made here changes with its sources.
    let library = match env::var_os("DOS33_LIB_DIR").filter(|d| !d.is_empty()) {
        Some(folder) => handed(Path::new(&folder)),
        None => made(here.parent().unwrap_or(&here)),
    };
    // A copy, so that emptying the repository's `target` takes nothing away from what cargo has built.
    let copy = out.join(OURS);
    if let Err(e) = fs::copy(&library, &copy) {
        stop(&format!("{} cannot be read: {e}", library.display()));
    }
    println!("cargo:rustc-link-search=native={}", out.display());
    println!("cargo:rustc-link-lib=static=dos33");
    // For the test that compiles a C program.
    println!("cargo:rustc-env=DOS33_LIBRARY={}", copy.display());
}
