//! Links `libcopp3_c.a` from the folder named by COPP3_LIB_DIR, or from `target/staticlib`.

use std::env;
use std::path::PathBuf;

fn main() {
    let folder = match env::var_os("COPP3_LIB_DIR") {
        Some(folder) => PathBuf::from(folder),
        None => PathBuf::from(env::var_os("CARGO_MANIFEST_DIR").expect("set by cargo"))
            .join("../../target/staticlib"),
    };
    println!("cargo:rerun-if-env-changed=COPP3_LIB_DIR");
    println!(
        "cargo:rerun-if-changed={}",
        folder.join("libcopp3_c.a").display()
    );
    println!("cargo:rustc-link-search=native={}", folder.display());
    println!("cargo:rustc-link-lib=static:-bundle=copp3_c");
}
