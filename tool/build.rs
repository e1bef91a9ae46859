// Links the archive of the proved library, which `bin/build library` makes.
use std::env;
use std::path::PathBuf;

fn main() {
    let here = PathBuf::from(env::var("CARGO_MANIFEST_DIR").unwrap());
    let folder = here.join("../target/staticlib");
    println!("cargo:rerun-if-changed={}", folder.join("liblamp.a").display());
    println!("cargo:rustc-link-search=native={}", folder.display());
    println!("cargo:rustc-link-lib=static=lamp");
}
