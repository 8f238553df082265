//! Says where the archive libblocks.a is: the folder that NYARGULET_LIB names, or the one that `make library` writes to.
use std::env;
use std::path::PathBuf;

fn main() {
    let folder = match env::var_os("NYARGULET_LIB") {
        Some(named) => PathBuf::from(named),
        None => PathBuf::from(
            env::var_os("CARGO_MANIFEST_DIR").expect("cargo names this crate's folder"),
        )
        .join("../target/staticlib"),
    };
    println!("cargo:rerun-if-env-changed=NYARGULET_LIB");
    println!(
        "cargo:rerun-if-changed={}",
        folder.join("libblocks.a").display()
    );
    println!("cargo:rustc-link-search=native={}", folder.display());
}
