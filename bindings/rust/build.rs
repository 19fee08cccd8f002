//! Finds the archive `librights_c.a`, or has the kit make it, and links it in.

use std::path::{Path, PathBuf};
use std::process::{exit, Command};
use std::{env, fs};

const ARCHIVE: &str = "librights_c.a";

fn main() {
    println!("cargo:rerun-if-env-changed=RIGHTS_LIB_DIR");
    let folder = match env::var_os("RIGHTS_LIB_DIR") {
        Some(folder) => given(Path::new(&folder)),
        None => made_by_the_kit(),
    };
    println!("cargo:rustc-link-search=native={}", folder.display());
    println!("cargo:rustc-link-lib=static=rights_c");
}

/// The folder that `RIGHTS_LIB_DIR` names; a relative one counts from this package's folder.
fn given(folder: &Path) -> PathBuf {
    match fs::canonicalize(folder) {
        Ok(folder) if folder.join(ARCHIVE).is_file() => {
            println!("cargo:rerun-if-changed={}", folder.join(ARCHIVE).display());
            folder
        }
        _ => fail(&format!(
            "RIGHTS_LIB_DIR is {}, where there is no {ARCHIVE}. Name the folder that holds it, as an \
             absolute path, or unset the variable to have the archive made by `tools/build`.",
            folder.display()
        )),
    }
}

/// Proves and builds the archive in the repository that this package lies in, anew only if a crate
/// has changed.
fn made_by_the_kit() -> PathBuf {
    let package = env::var_os("CARGO_MANIFEST_DIR").expect("cargo sets it");
    let root = Path::new(&package).join("../..");
    println!("cargo:rerun-if-changed={}", root.join("crates").display());
    let advice = format!(
        "Set RIGHTS_LIB_DIR to the folder that holds {ARCHIVE}, or install Rattle's kit and try \
         `tools/build library` in the repository's root."
    );
    let mut kit = Command::new(root.join("tools/build"));
    kit.arg("library").current_dir(&root);
    match kit.output() {
        Err(why) => fail(&format!("`tools/build` can't be run: {why}. {advice}")),
        Ok(end) if !end.status.success() => {
            let said = String::from_utf8_lossy(&end.stderr);
            fail(&format!("`tools/build library` failed. {advice}\n{said}"))
        }
        Ok(_) => {}
    }
    match fs::canonicalize(root.join("target/staticlib")) {
        Ok(folder) if folder.join(ARCHIVE).is_file() => folder,
        _ => fail(&format!(
            "`tools/build library` left no {ARCHIVE}. {advice}"
        )),
    }
}

fn fail(why: &str) -> ! {
    eprintln!("rights: {why}");
    exit(1)
}
