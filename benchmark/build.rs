//! Links the library and the two builds of plain.c, each at four places, as tools/benchmark made them.

fn main() {
    let top = std::env::var("CARGO_MANIFEST_DIR").unwrap();
    println!("cargo:rustc-link-search=native={top}/../target/benchmark");
    println!("cargo:rustc-link-lib=static=placed");
    println!("cargo:rerun-if-changed=../target/benchmark/libplaced.a");
    // The calls that BEFORE lacks, by tools/benchmark: the first with the ledger is add_emitter.
    println!("cargo::rustc-check-cfg=cfg(before_without_ledger)");
    println!("cargo:rerun-if-env-changed=BEFORE_LACKS");
    let lacks = std::env::var("BEFORE_LACKS").unwrap_or_default();
    if lacks.split(' ').any(|lacking| lacking == "add_emitter") {
        println!("cargo:rustc-cfg=before_without_ledger");
    }
}
