// Finds the archive with the proved functions, libport_c.a: in the folder that KERZHOMA_LIB names, or where `./build` puts it.
use std::{env, path::PathBuf};

fn main() {
    println!("cargo::rerun-if-env-changed=KERZHOMA_LIB");
    let folder = match env::var_os("KERZHOMA_LIB") {
        Some(folder) => PathBuf::from(folder),
        None => PathBuf::from(env::var_os("CARGO_MANIFEST_DIR").unwrap_or_default()).join("../../target/staticlib"),
    };
    let archive = folder.join("libport_c.a");
    println!("cargo::rerun-if-changed={}", archive.display());
    let Ok(whole) = archive.canonicalize() else {
        println!(
            "cargo::error=there is no {}: run ./build at the top of the repository, or name a folder that has it in KERZHOMA_LIB",
            archive.display()
        );
        return;
    };
    if let Some(folder) = whole.parent() {
        println!("cargo::rustc-link-search=native={}", folder.display());
    }
    println!("cargo::rustc-link-lib=static=port_c");
}
