//! Links the library for C, `libhost.a`.
//!
//! `JINXBANYAN_LIB_DIR` has the path of its directory, absolute or from this package on;
//! `../target/staticlib`, where `../prove staticlib host` puts it, if not given.

use std::env;
use std::path::Path;

fn main() {
    println!("cargo::rerun-if-env-changed=JINXBANYAN_LIB_DIR");
    let given = env::var("JINXBANYAN_LIB_DIR").ok().filter(|dir| !dir.is_empty());
    let dir = given.unwrap_or("../target/staticlib".to_string());
    // The file itself, so that a library built anew is linked anew.
    println!("cargo::rerun-if-changed={dir}/libhost.a");
    match Path::new(&dir).canonicalize() {
        Ok(dir) if dir.join("libhost.a").is_file() => {
            println!("cargo::rustc-link-search=native={}", dir.display());
            println!("cargo::rustc-link-lib=static=host");
        }
        _ => panic!(
            "there is no libhost.a in {dir}: `prove staticlib host` makes it, in target/staticlib, \
             and JINXBANYAN_LIB_DIR may name another directory"
        ),
    }
}
