//! Links the proved library, `libseats.a`, from the folder FEEDERCOIL_LIB, or from `target/lib` of the repository.
use std::env;
use std::path::PathBuf;
use std::process;

fn main() {
    println!("cargo:rerun-if-env-changed=FEEDERCOIL_LIB");
    println!("cargo:rerun-if-changed=build.rs");
    let folder = match env::var_os("FEEDERCOIL_LIB") {
        Some(folder) => PathBuf::from(folder),
        None => PathBuf::from(env::var_os("CARGO_MANIFEST_DIR").unwrap()).join("../target/lib"),
    };
    let archive = folder.join("libseats.a");
    println!("cargo:rerun-if-changed={}", archive.display());
    if !archive.is_file() {
        eprintln!(
            "feedercoil: no {}: `make lib` in the repository builds it; FEEDERCOIL_LIB names another folder that has it (an absolute path)",
            archive.display()
        );
        process::exit(1);
    }
    println!("cargo:rustc-link-search=native={}", folder.display());
    println!("cargo:rustc-link-lib=static=seats");
}
