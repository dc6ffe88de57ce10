//! Says where the archive libhost.a stands: in the folder that MUEANPHRAI_LIB names, else where
//! `tools/staticlib` writes it. A changed archive is linked again. Where it is missing, a warning
//! says what to do: checking and documenting go on without it, linking ends with rustc's error.

use std::env;
use std::path::PathBuf;

fn main() {
    let folder = match env::var_os("MUEANPHRAI_LIB") {
        Some(folder) => PathBuf::from(folder),
        None => {
            let here = env::var_os("CARGO_MANIFEST_DIR").expect("cargo names the crate's folder");
            PathBuf::from(here).join("../target/staticlib")
        }
    };
    let archive = folder.join("libhost.a");
    if !archive.is_file() {
        println!(
            "cargo:warning=the kernel's archive is missing: there is no {}",
            archive.display()
        );
        println!(
            "cargo:warning=`tools/staticlib` in the repository's root writes it; or let \
             MUEANPHRAI_LIB name the folder that holds it"
        );
    }
    println!("cargo:rerun-if-env-changed=MUEANPHRAI_LIB");
    println!("cargo:rerun-if-changed={}", archive.display());
    println!("cargo:rustc-link-search=native={}", folder.display());
    println!("cargo:rustc-link-lib=static=host");
}
