//! Names the original by its path, so that it is compiled from where it stands and never copied.

use std::{env, fs, path::Path};

fn main() {
    println!("cargo:rerun-if-env-changed=SPARSE_RS");
    let given = env::var("SPARSE_RS").expect("set SPARSE_RS to the path of the original sparse.rs");
    let original = fs::canonicalize(&given).unwrap_or_else(|why| panic!("{given}: {why}"));
    println!("cargo:rerun-if-changed={}", original.display());
    let module = format!(
        "#[path = {:?}]\n#[allow(dead_code)]\npub mod sparse;\n",
        original.to_str().expect("a path in UTF-8")
    );
    let out = env::var("OUT_DIR").expect("cargo sets OUT_DIR");
    fs::write(Path::new(&out).join("original.rs"), module).expect("write original.rs");
}
