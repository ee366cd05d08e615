// Joins the crate's four files: those of the folder that KERZHOMA_CRATE names, or those of ../quick-junit.
use std::{env, fs, path::PathBuf};

fn main() {
    println!("cargo:rerun-if-env-changed=KERZHOMA_CRATE");
    let here = PathBuf::from(env::var_os("CARGO_MANIFEST_DIR").unwrap());
    let folder = env::var_os("KERZHOMA_CRATE").map_or(here.join("../quick-junit"), PathBuf::from);
    let mut joined = String::new();
    for name in ["deserialize", "errors", "report", "serialize"] {
        let file = folder.join(name).with_extension("rs");
        println!("cargo:rerun-if-changed={}", file.display());
        let whole = file.canonicalize().unwrap_or_else(|e| panic!("{}: {e}", file.display()));
        joined += &format!("#[path = {:?}]\nmod {name};\n", whole);
    }
    let out = PathBuf::from(env::var_os("OUT_DIR").unwrap()).join("joined.rs");
    fs::write(out, joined).unwrap();
}
