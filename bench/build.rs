//! Links the archive that `rt lib` writes in crates/replay, and in `copies` the functions that count.

fn main() {
    let folder = format!("{}/../crates/replay/out", env!("CARGO_MANIFEST_DIR"));
    println!("cargo:rustc-link-search=native={folder}");
    println!("cargo:rustc-link-lib=static=replay");
    println!("cargo:rerun-if-changed={folder}/libreplay.a");
    for copy in ["memcpy", "memmove"] {
        println!("cargo:rustc-link-arg-bin=copies=-Wl,--wrap={copy}");
    }
}
