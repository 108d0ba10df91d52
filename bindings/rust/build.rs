//! Finds the static library, has it proved and built where it is missing, and tells Cargo to link it.
//!
//! Where `MWELITUNGA_LIB_DIR` is set, the library is `libmwelitunga.a` in that folder; a relative path begins where Cargo
//! was called. Otherwise it is `target/staticlib/libmwelitunga.a` of the repository that this crate stands in.

use std::env;
use std::path::{Path, PathBuf};
use std::process::{exit, Command};

/// The variable that names the library's folder.
const VARIABLE: &str = "MWELITUNGA_LIB_DIR";

/// The name of the library's file.
const LIBRARY: &str = "libmwelitunga.a";

/// The script of the repository that has `rt` prove and build the library. Its status is 127 where there is no `rt`.
const BUILDER: &str = "bin/build-library";

fn main() {
    println!("cargo:rerun-if-changed=build.rs");
    println!("cargo:rerun-if-env-changed={VARIABLE}");
    match found() {
        Ok(folder) => link(&folder),
        Err(message) => {
            eprintln!("mwelitunga: {message}");
            exit(1);
        }
    }
}

/// Has the library of a folder linked, and this script run again when the library changes.
fn link(folder: &Path) {
    println!("cargo:rerun-if-changed={}", folder.join(LIBRARY).display());
    println!("cargo:rustc-link-search=native={}", folder.display());
    println!("cargo:rustc-link-lib=static=mwelitunga");
}

/// The folder that has the library, or why there is none.
fn found() -> Result<PathBuf, String> {
    check_target()?;
    match env::var_os(VARIABLE) {
        Some(folder) => given(PathBuf::from(folder)),
        None => of_repository(),
    }
}

/// The library is machine code for one target only.
fn check_target() -> Result<(), String> {
    let target = |name| env::var(name).unwrap_or_default();
    let (arch, os) = (
        target("CARGO_CFG_TARGET_ARCH"),
        target("CARGO_CFG_TARGET_OS"),
    );
    if arch == "x86_64" && os == "linux" {
        Ok(())
    } else {
        Err(format!(
            "the library is there for x86-64 Linux only, and not for {arch} {os}"
        ))
    }
}

/// The folder that the variable names, which must have the library already. The path is made whole: the linker is
/// called in another folder than this script.
fn given(folder: PathBuf) -> Result<PathBuf, String> {
    let whole = if folder.is_relative() {
        // Called elsewhere, the same words are another folder.
        println!("cargo:rerun-if-env-changed=PWD");
        where_called()?.join(&folder)
    } else {
        folder.clone()
    };
    if whole.join(LIBRARY).is_file() {
        Ok(whole)
    } else {
        Err(format!(
            "{VARIABLE} is set to \"{}\", but there is no {}",
            folder.display(),
            whole.join(LIBRARY).display()
        ))
    }
}

/// The folder in which Cargo was called. Cargo runs this script in the folder of the package, and stays itself where it
/// was called. Where the system does not tell that, `PWD` is what the caller's shell said.
fn where_called() -> Result<PathBuf, String> {
    of_cargo()
        .or_else(|| env::var_os("PWD").map(PathBuf::from))
        .filter(|folder| folder.is_absolute())
        .ok_or_else(|| {
            format!("{VARIABLE} is a relative path, and where Cargo was called is not known: set it to a whole path")
        })
}

/// The folder that Cargo, the parent process of this script, is in.
#[cfg(unix)]
fn of_cargo() -> Option<PathBuf> {
    let cargo = std::os::unix::process::parent_id();
    std::fs::read_link(format!("/proc/{cargo}/cwd")).ok()
}

#[cfg(not(unix))]
fn of_cargo() -> Option<PathBuf> {
    None
}

/// The folder below the repository's root that has the library; built now where it is missing.
fn of_repository() -> Result<PathBuf, String> {
    let manifest = env::var_os("CARGO_MANIFEST_DIR").ok_or("CARGO_MANIFEST_DIR is not set")?;
    let root = Path::new(&manifest).join("..").join("..");
    let folder = root.join("target").join("staticlib");
    let library = folder.join(LIBRARY);
    if !library.is_file() {
        build(&root)?;
        if !library.is_file() {
            return Err(format!(
                "`{BUILDER}` ended well, but {} is not there",
                library.display()
            ));
        }
    }
    Ok(folder)
}

/// Proves and builds the library in the repository.
fn build(root: &Path) -> Result<(), String> {
    let why = format!(
        "the library was not there: `{BUILDER}` has `rt` prove and build it, which takes five to ten minutes"
    );
    println!("cargo:warning={why}");
    eprintln!("mwelitunga: {why}");
    let status = Command::new(root.join(BUILDER))
        .status()
        .map_err(|error| missing(BUILDER, &format!("cannot be run ({error})")))?;
    match status.code() {
        Some(0) => Ok(()),
        Some(127) => Err(missing("rt", "was not found")),
        _ => Err(format!(
            "`{BUILDER}` failed ({status}); run it in the repository's root to see why"
        )),
    }
}

/// The message where the library is not there, nor a command that builds it.
fn missing(command: &str, what: &str) -> String {
    format!(
        "{LIBRARY} is not there, and `{command}`, which builds it, {what}. \
         Install the Rattle toolchain and run `{BUILDER}` in the repository's root, \
         or set {VARIABLE} to a folder that has {LIBRARY}"
    )
}
