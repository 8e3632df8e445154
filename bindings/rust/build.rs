// Finds the static library of the proved crate walls_c, or has the Rattle kit make it.
use std::env;
use std::path::{Path, PathBuf};
use std::process::Command;

fn main() {
    println!("cargo:rerun-if-env-changed=WALLS_C_DIR");
    let folder = match env::var_os("WALLS_C_DIR") {
        Some(folder) => PathBuf::from(folder),
        None => in_repository(),
    };
    let library = folder.join("libwalls_c.a");
    assert!(library.is_file(), "no {}: run `rt lib` in crates/walls_c, or name the folder that has it in WALLS_C_DIR", library.display());
    println!("cargo:rerun-if-changed={}", library.display());
    println!("cargo:rustc-link-search=native={}", folder.display());
    println!("cargo:rustc-link-lib=static=walls_c");
}

// The folder where `rt lib` puts it, in this repository.
fn in_repository() -> PathBuf {
    let here = env::var_os("CARGO_MANIFEST_DIR").expect("cargo names the package's folder");
    let made_by = Path::new(&here).join("../../crates/walls_c");
    let folder = made_by.join("out");
    if !folder.join("libwalls_c.a").is_file() {
        // Where there is no kit, the assertion above says what is missing.
        let _ = Command::new("rt").arg("lib").current_dir(&made_by).status();
    }
    folder
}
