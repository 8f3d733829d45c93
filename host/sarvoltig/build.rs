//! Links the proved library, `lib/libsarvoltig.a` of the repository, or that of `SARVOLTIG_LIB_DIR`.

use std::env;
use std::path::PathBuf;

fn main() {
    println!("cargo:rerun-if-env-changed=SARVOLTIG_LIB_DIR");
    let dir = match env::var_os("SARVOLTIG_LIB_DIR") {
        Some(dir) => PathBuf::from(dir),
        None => PathBuf::from(env::var_os("CARGO_MANIFEST_DIR").expect("cargo sets it"))
            .join("../../lib"),
    };
    let library = dir.join("libsarvoltig.a");
    println!("cargo:rerun-if-changed={}", library.display());
    assert!(
        library.exists(),
        "{} is not there: run `tools/build_library` in the repository first",
        library.display()
    );
    println!("cargo:rustc-link-search=native={}", dir.display());
    println!("cargo:rustc-link-lib=static=sarvoltig");
}
