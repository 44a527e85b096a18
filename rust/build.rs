//! Finds the static library, in the folder that the environment names in CUTAWHENO_LIB_DIR, else where the repository's own build leaves
//! it (`tools/prove`): libcapi.a, or libcutawheno.a as it is called where it is installed. It is linked by the first name.
use std::path::{Path, PathBuf};

const NAMED: &str = "CUTAWHENO_LIB_DIR";
const BUILT: &str = "libcapi.a";
const INSTALLED: &str = "libcutawheno.a";

fn main() -> Result<(), String> {
    println!("cargo:rerun-if-env-changed={NAMED}");
    let folder = match std::env::var_os(NAMED) {
        Some(folder) => PathBuf::from(folder),
        None => Path::new(env!("CARGO_MANIFEST_DIR")).join("../target/staticlib"),
    };
    let library = if folder.join(INSTALLED).is_file() { INSTALLED } else { BUILT };
    let library = folder.join(library);
    println!("cargo:rerun-if-changed={}", library.display());
    let linked = PathBuf::from(std::env::var_os("OUT_DIR").ok_or("cargo sets OUT_DIR")?);
    std::fs::copy(&library, linked.join(BUILT)).map_err(|fault| {
        format!("{}: {fault}: run `tools/prove` in the repository, or set {NAMED} to the folder that has the library", library.display())
    })?;
    println!("cargo:rustc-link-search=native={}", linked.display());
    Ok(())
}
