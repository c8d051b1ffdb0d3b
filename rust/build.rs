// Says where libmachirsun.a is: in the folder that MACHIRSUN_LIB names, or where `sh compare/library` writes it.
use std::env;
use std::path::{Path, PathBuf};

fn main() {
    let package = env::var("CARGO_MANIFEST_DIR").expect("cargo sets CARGO_MANIFEST_DIR");
    let folder = match env::var_os("MACHIRSUN_LIB") {
        Some(folder) => PathBuf::from(folder),
        None => Path::new(&package).join("../target/staticlib"),
    };
    println!("cargo:rerun-if-env-changed=MACHIRSUN_LIB");
    println!(
        "cargo:rerun-if-changed={}",
        folder.join("libmachirsun.a").display()
    );
    println!("cargo:rustc-link-search=native={}", folder.display());
    println!("cargo:rustc-link-lib=static=machirsun");
}
