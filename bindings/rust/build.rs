//! Finds liblidar.a, which `./staticlib` writes.

use std::path::PathBuf;

fn main() {
    println!("cargo:rerun-if-env-changed=LIDAR_LIB_DIR");
    // Cargo runs this in the crate's folder, and a place that is given may be relative to another.
    let here =
        PathBuf::from(std::env::var_os("CARGO_MANIFEST_DIR").expect("cargo gives the folder"));
    let folder = match std::env::var_os("LIDAR_LIB_DIR") {
        Some(given) => here.join(given),
        None => here.join("../../target/staticlib"),
    };
    let archive = folder.join("liblidar.a");
    println!("cargo:rerun-if-changed={}", archive.display());
    if !archive.is_file() {
        eprintln!(
            "There is no {}. Run ./staticlib at the top of the repository, which writes it, or set \
             LIDAR_LIB_DIR to the folder that has it.",
            archive.display()
        );
        std::process::exit(1);
    }
    println!("cargo:rustc-link-search=native={}", folder.display());
    println!("cargo:rustc-link-lib=static=lidar");
}
