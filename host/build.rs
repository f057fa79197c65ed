//! Links the model's static library: MODEL_LIB, or the one that tools/staticlib writes.

use std::env;
use std::path::PathBuf;

fn main() {
    println!("cargo::rerun-if-env-changed=MODEL_LIB");
    let root = PathBuf::from(env::var("CARGO_MANIFEST_DIR").unwrap()).join("..");
    let default = root.join("target/staticlib/libmodel.a");
    let library = env::var("MODEL_LIB").map_or(default, |named| root.join(named));
    println!("cargo::rerun-if-changed={}", library.display());
    if library.is_file() {
        println!("cargo::rustc-link-arg={}", library.display());
    } else {
        println!("cargo::error=no library {}: host/build makes it", library.display());
    }
}
