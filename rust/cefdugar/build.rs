//! Says where the archive libcefdugar.a stands: the folder CEFDUGAR_LIB_DIR, or
//! target/staticlib of this repository, where `include/archive` writes it.

use std::env;
use std::path::PathBuf;

fn main() {
    let folder = match env::var_os("CEFDUGAR_LIB_DIR") {
        Some(folder) => PathBuf::from(folder),
        None => {
            let here = PathBuf::from(env::var_os("CARGO_MANIFEST_DIR").unwrap());
            here.join("../../target/staticlib")
        }
    };
    println!("cargo:rerun-if-env-changed=CEFDUGAR_LIB_DIR");
    println!(
        "cargo:rerun-if-changed={}",
        folder.join("libcefdugar.a").display()
    );
    println!("cargo:rustc-link-search=native={}", folder.display());
    println!("cargo:rustc-link-lib=static=cefdugar");
}
