//! Says where the static library is: in `YEFIMORA_LIB`, or where `rt lib` in crates/embedding writes it.

use std::env;
use std::path::PathBuf;

fn main() {
    println!("cargo:rerun-if-env-changed=YEFIMORA_LIB");
    let here = PathBuf::from(env::var("CARGO_MANIFEST_DIR").expect("cargo says where the manifest is"));
    let folder = match env::var("YEFIMORA_LIB") {
        Ok(folder) => PathBuf::from(folder),
        Err(_) => here.join("../../crates/embedding/out"),
    };
    let library = folder.join("libembedding.a");
    println!("cargo:rerun-if-changed={}", library.display());
    if !library.exists() {
        println!("cargo:warning={} is not there: run `rt lib` in crates/embedding first", library.display());
    }
    println!("cargo:rustc-link-search=native={}", folder.display());
    println!("cargo:rustc-link-lib=static=embedding");
}
