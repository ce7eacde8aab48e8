//! Links libpuldeho.a: from PULDEHO_LIB_DIR, from target/lib of the repository, or from PREFIX/lib where it is installed.

use std::path::PathBuf;

fn main() {
    println!("cargo:rerun-if-env-changed=PULDEHO_LIB_DIR");
    let here = PathBuf::from(std::env::var("CARGO_MANIFEST_DIR").unwrap());
    let places = match std::env::var("PULDEHO_LIB_DIR") {
        Ok(place) => vec![PathBuf::from(place)],
        Err(_) => vec![here.join("../../target/lib"), here.join("../../../lib")],
    };
    let Some(place) = places
        .iter()
        .find(|place| place.join("libpuldeho.a").exists())
    else {
        panic!("no libpuldeho.a in {places:?}: tools/library builds it in the repository, and PULDEHO_LIB_DIR may name its folder");
    };
    println!("cargo:rustc-link-search=native={}", place.display());
    println!("cargo:rustc-link-lib=static=puldeho");
    println!(
        "cargo:rerun-if-changed={}",
        place.join("libpuldeho.a").display()
    );
}
