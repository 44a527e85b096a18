//! Where the static libraries lie; what is built against them is built again where they have changed.
fn main() {
    let root = concat!(env!("CARGO_MANIFEST_DIR"), "/..");
    for (folder, library) in [("target/staticlib", "libcapi.a"), ("target/bench", "libsolver.a")] {
        println!("cargo:rustc-link-search=native={root}/{folder}");
        println!("cargo:rerun-if-changed={root}/{folder}/{library}");
    }
}
