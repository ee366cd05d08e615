// Finds the archive with the proved functions, as ports/rust/build.rs does, says whether it writes XML documents, and whether expat is here.
use std::{env, fs, path::Path, path::PathBuf, process};

fn main() {
    println!("cargo:rerun-if-env-changed=KERZHOMA_LIB");
    println!("cargo:rustc-check-cfg=cfg(writes_xml)");
    println!("cargo:rustc-check-cfg=cfg(has_expat)");
    println!("cargo:rustc-check-cfg=cfg(fuzzing)");
    let here = PathBuf::from(env::var_os("CARGO_MANIFEST_DIR").unwrap());
    let folder = env::var_os("KERZHOMA_LIB").map_or(here.join("../../target/staticlib"), PathBuf::from);
    let archive = folder.join("libport_c.a");
    println!("cargo:rerun-if-changed={}", archive.display());
    let Ok(bytes) = fs::read(&archive) else {
        eprintln!("There is no archive {}.", archive.display());
        eprintln!("Run `./build` at the top of the repository, or name a folder that has libport_c.a in KERZHOMA_LIB.");
        process::exit(1);
    };
    let symbol = b"kerzhoma_write_xml\0";
    if bytes.windows(symbol.len()).any(|w| w == symbol) {
        println!("cargo:rustc-cfg=writes_xml");
    }
    println!("cargo:rustc-link-search=native={}", folder.canonicalize().unwrap().display());
    println!("cargo:rustc-link-lib=static=port_c");
    if Path::new("/usr/include/expat.h").exists() {
        println!("cargo:rustc-cfg=has_expat");
        println!("cargo:rustc-link-lib=dylib=expat");
    }
}
