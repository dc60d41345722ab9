//! Links the library that `rt lib` wrote in `crates/timo`.

fn main() {
    let archive = concat!(env!("CARGO_MANIFEST_DIR"), "/../crates/timo/out");
    println!("cargo:rustc-link-search=native={archive}");
    println!("cargo:rustc-link-lib=static=timo");
    println!("cargo:rerun-if-changed={archive}/libtimo.a");
}
