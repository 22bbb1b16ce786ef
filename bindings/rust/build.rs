//! Finds the proved static library, and says what to do where it is missing.

use std::env;
use std::path::{Path, PathBuf};
use std::process::ExitCode;

const LIBRARY: &str = "libskew_c.a";
const VARIABLE: &str = "MILEPARCEL_LIB_DIR";

fn main() -> ExitCode {
    println!("cargo:rerun-if-changed=build.rs");
    println!("cargo:rerun-if-env-changed={VARIABLE}");
    // Elsewhere the crate does not compile, and its own words are the ones to see.
    if !for_the_librarys_machine() {
        return ExitCode::SUCCESS;
    }
    match folder() {
        Ok(folder) => {
            println!("cargo:rustc-link-search=native={}", folder.display());
            println!("cargo:rustc-link-lib=static=skew_c");
            println!("cargo:rerun-if-changed={}", folder.join(LIBRARY).display());
            ExitCode::SUCCESS
        }
        Err(words) => {
            eprintln!("mileparcel: {words}");
            ExitCode::FAILURE
        }
    }
}

fn for_the_librarys_machine() -> bool {
    let is = |name: &str, due: &str| env::var(name).as_deref() == Ok(due);
    is("CARGO_CFG_TARGET_ARCH", "x86_64") && is("CARGO_CFG_TARGET_OS", "linux")
}

/// The folder with the library: the one that was named, or else that of a release or of the repository.
fn folder() -> Result<PathBuf, String> {
    if let Some(named) = env::var_os(VARIABLE) {
        return named_folder(Path::new(&named));
    }
    let root = Path::new(&env::var_os("CARGO_MANIFEST_DIR").unwrap_or_default()).join("../..");
    let places = [root.join("lib"), root.join("target/staticlib")];
    let found = places.iter().find(|place| place.join(LIBRARY).is_file());
    found.and_then(|place| place.canonicalize().ok()).ok_or_else(|| {
        let [release, repository] = places.map(|place| place.display().to_string());
        format!(
            "{LIBRARY} is neither in {release} (a release has it there) nor in {repository}: \
             run `make` in the repository, or set {VARIABLE} to the folder that has it"
        )
    })
}

/// A relative folder would be looked for in the crate's own folder and not in that of the caller, so none is taken.
fn named_folder(named: &Path) -> Result<PathBuf, String> {
    if named.is_relative() {
        return Err(format!("{VARIABLE} is {}: it must be an absolute path", named.display()));
    }
    if !named.join(LIBRARY).is_file() {
        return Err(format!("{VARIABLE} is {}, and no {LIBRARY} is there", named.display()));
    }
    Ok(named.to_path_buf())
}
