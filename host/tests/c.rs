// dos33.h and the library, from C and from C++.
use std::env;
use std::path::Path;
use std::process::Command;

// A C program of this folder, built as C or C++, and what it prints.
fn output(compiler: &str, language: &str, source: &str) -> String {
    let here = Path::new(env!("CARGO_MANIFEST_DIR"));
    let (kind, name) = if language.starts_with("-std=c++") {
        ("c++", format!("{source}.cpp"))
    } else {
        ("c", format!("{source}.c"))
    };
    let program = Path::new(env!("CARGO_TARGET_TMPDIR")).join(name.replace('/', "_"));
    let built = Command::new(compiler)
        .args([
            "-Wall",
            "-Wextra",
            "-Werror",
            "-pedantic",
            "-O1",
            language,
            "-x",
            kind,
        ])
        .arg("-I")
        .arg(here)
        .arg(here.join(source))
        .args(["-x", "none"])
        .arg(env!("DOS33_LIBRARY"))
        .arg("-o")
        .arg(&program)
        .output()
        .unwrap_or_else(|e| panic!("{compiler} could not be started: {e}"));
    assert!(
        built.status.success(),
        "{}",
        String::from_utf8_lossy(&built.stderr)
    );
    let ran = Command::new(&program).output().expect("the program starts");
    let printed = String::from_utf8_lossy(&ran.stdout).into_owned();
    assert!(ran.status.success(), "{printed}");
    printed
}

const SMOKE: &str = "tests/smoke.c";
const SAVING: &str = "examples/saving.c";
const SAVING_PRINTS: &str = include_str!("../examples/saving.txt");

#[test]
fn smoke_and_saving_in_c() {
    let cc = env::var("CC").unwrap_or_else(|_| "cc".into());
    assert_eq!(output(&cc, "-std=c99", SMOKE), "good\n");
    assert_eq!(output(&cc, "-std=c99", SAVING), SAVING_PRINTS);
}

// Where there is no C++ compiler, this says so and passes.
#[test]
fn smoke_and_saving_in_cpp() {
    let cxx = env::var("CXX").unwrap_or_else(|_| "c++".into());
    if Command::new(&cxx).arg("--version").output().is_err() {
        eprintln!("no {cxx}: the header was not tried in C++");
        return;
    }
    assert_eq!(output(&cxx, "-std=c++11", SMOKE), "good\n");
    assert_eq!(output(&cxx, "-std=c++11", SAVING), SAVING_PRINTS);
}

// The header, the Rust declarations and the table of docs/HOST-API.md have the same 32 names; smoke.c links them all, and so do the tests of the raw functions.
#[test]
fn header_and_raw_have_the_same_functions() {
    let names = |text: &str, before: &str| -> Vec<String> {
        let mut v: Vec<String> = text
            .lines()
            .filter_map(|l| l.trim_start().strip_prefix(before))
            .filter_map(|l| l.split(['(', '`']).next())
            .map(str::to_owned)
            .collect();
        v.sort();
        v
    };
    let header = names(include_str!("../dos33.h"), "uint8_t dos33_");
    let raw = names(include_str!("../src/raw.rs"), "pub fn dos33_");
    assert_eq!(header.len(), 32);
    assert_eq!(header, raw);
    assert_eq!(
        header,
        names(include_str!("../../docs/HOST-API.md"), "| `dos33_")
    );
}
