//! Tells the linker where libbil.a is: in the folder that BIL_ARCHIVE names, or in the repository's target/staticlib.
//! Where it isn't there, or is for another machine than the build, the build ends with a line that says what to do.

use std::env;
use std::path::PathBuf;
use std::process::exit;

/// The folder of the repository's own archive, which is for x86-64 Linux alone.
fn own() -> Result<PathBuf, String> {
    let said = |name| env::var(name).expect("cargo tells every build script");
    let (machine, system) = (said("CARGO_CFG_TARGET_ARCH"), said("CARGO_CFG_TARGET_OS"));
    if (machine.as_str(), system.as_str()) != ("x86_64", "linux") {
        return Err(format!(
            "the archive is for x86-64 Linux, and this build is for {machine} {system}: \
             name the folder of a libbil.a for it in BIL_ARCHIVE"
        ));
    }
    Ok(PathBuf::from(said("CARGO_MANIFEST_DIR")).join("../target/staticlib"))
}

/// The folder of the archive, from the root on: the linker is called from folders of cargo's choice. A name that doesn't
/// start at the root is taken from the folder of this crate, where cargo runs this script.
fn folder() -> Result<PathBuf, String> {
    let named = env::var_os("BIL_ARCHIVE").filter(|folder| !folder.is_empty()).map(PathBuf::from);
    let folder = named.map_or_else(own, Ok)?;
    match folder.canonicalize() {
        Ok(whole) if whole.join("libbil.a").is_file() => Ok(whole),
        _ => Err(format!(
            "there is no {}: run 'make' in the repository, \
             or name the folder of libbil.a in BIL_ARCHIVE",
            env::current_dir().unwrap_or_default().join(folder).join("libbil.a").display()
        )),
    }
}

fn main() {
    println!("cargo:rerun-if-env-changed=BIL_ARCHIVE");
    match folder() {
        Ok(folder) => {
            println!("cargo:rerun-if-changed={}", folder.join("libbil.a").display());
            println!("cargo:rustc-link-search=native={}", folder.display());
            println!("cargo:rustc-link-lib=static=bil");
        }
        Err(why) => {
            eprintln!("bil: {why}");
            exit(1);
        }
    }
}
