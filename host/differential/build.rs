// Copies image-rider's files into the build folder, unchanged but for one line. Our library is linked by the crate dos33.
use std::path::{Path, PathBuf};
use std::{env, fs};

const FILES: [&str; 7] = [
    "config.rs",
    "error.rs",
    "serialize.rs",
    "disk_format/image.rs",
    "disk_format/apple/catalog.rs",
    "disk_format/apple/disk.rs",
    "disk_format/apple/nibble.rs",
];

fn main() {
    let here = PathBuf::from(env::var("CARGO_MANIFEST_DIR").unwrap());
    let top = here.join("../..");
    let build = PathBuf::from(env::var("OUT_DIR").unwrap());

    println!("cargo:rerun-if-env-changed=IMAGE_RIDER_SRC");
    let source = match env::var("IMAGE_RIDER_SRC") {
        Ok(folder) => PathBuf::from(folder),
        Err(_) => top.join("../shared/docs/src"),
    };
    for file in FILES {
        copy(&source.join("src").join(file), &build.join(file));
    }
    fs::write(build.join("modules.rs"), modules(&build)).unwrap();
}

fn copy(from: &Path, to: &Path) {
    println!("cargo:rerun-if-changed={}", from.display());
    let mut text = match fs::read_to_string(from) {
        Ok(text) => text,
        Err(e) => panic!("{}: {e} (set IMAGE_RIDER_SRC)", from.display()),
    };
    // As published it ends in an attribute that wants an item.
    if from.ends_with("error.rs") {
        text.push_str("mod nothing {}\n");
    }
    fs::create_dir_all(to.parent().unwrap()).unwrap();
    fs::write(to, text).unwrap();
}

// The modules at the places where image-rider has them; those it does not publish are in shims.rs.
fn modules(build: &Path) -> String {
    let at = |file: &str| format!("#[path = {:?}]\n#[allow(warnings)]\n", build.join(file));
    let mut text = String::new();
    for name in ["config", "error", "serialize"] {
        text += &format!("{}pub mod {name};\n", at(&format!("{name}.rs")));
    }
    text += "pub mod disk_format {\n";
    text += "pub use crate::shims::{sanity_check, stx};\n";
    text += &format!("{}pub mod image;\n", at("disk_format/image.rs"));
    text += "pub mod apple {\n";
    for name in ["catalog", "disk", "nibble"] {
        text += &format!(
            "{}pub mod {name};\n",
            at(&format!("disk_format/apple/{name}.rs"))
        );
    }
    text += "}\n}\n";
    text
}
