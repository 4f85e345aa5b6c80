//! Links the proved library, the archive that `rt lib` writes to `out` in
//! crates/nuorpyts or the one in the folder `NUORPYTS_LIB`, which is never
//! kept in this repository; and writes the Rust of what the C header declares,
//! so that no number and no type of the header stands here too.

mod header;
mod rust;

use std::env;
use std::fs;
use std::path::{Path, PathBuf};

fn main() {
    println!("cargo::rerun-if-changed=build");
    link();
    if let Err(how) = write_declarations() {
        println!("cargo::error={how}");
    }
}

fn link() {
    println!("cargo::rerun-if-env-changed=NUORPYTS_LIB");
    let folder = match env::var_os("NUORPYTS_LIB") {
        Some(folder) => PathBuf::from(folder),
        None => root().join("crates/nuorpyts/out"),
    };
    let archive = folder.join("libnuorpyts.a");
    println!("cargo::rerun-if-changed={}", archive.display());
    if archive.is_file() {
        println!("cargo::rustc-link-search=native={}", folder.display());
        println!("cargo::rustc-link-lib=static=nuorpyts");
        println!("cargo::rustc-env=NUORPYTS_ARCHIVE={}", archive.display());
    } else {
        println!(
            "cargo::error=the proved library is missing: make it by include/test/library at the \
             repository's root, or name the folder of libnuorpyts.a in NUORPYTS_LIB"
        );
    }
}

/// Reads the header and writes `declarations.rs`, which `src/lib.rs` includes.
fn write_declarations() -> Result<(), String> {
    let path = root().join("include/nuorpyts.h");
    println!("cargo::rerun-if-changed={}", path.display());
    let text = fs::read_to_string(&path).map_err(|how| format!("{}: {how}", path.display()))?;
    let header = header::read(&text).map_err(|how| format!("{}: {how}", path.display()))?;
    let out = PathBuf::from(env::var_os("OUT_DIR").ok_or("cargo names no OUT_DIR")?);
    fs::write(out.join("declarations.rs"), rust::text(&header)).map_err(|how| how.to_string())
}

/// The repository's root.
fn root() -> PathBuf {
    Path::new(&env::var_os("CARGO_MANIFEST_DIR").unwrap_or_default()).join("../..")
}
