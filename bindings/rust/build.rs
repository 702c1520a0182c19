//! Links the archive that `bindings/run` makes.

fn main() {
    let root = concat!(env!("CARGO_MANIFEST_DIR"), "/../..");
    println!("cargo:rustc-link-search=native={root}/target/staticlib");
    println!("cargo:rustc-link-lib=static=instrument");
}
