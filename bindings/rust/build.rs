// Links libintaglio.a, which bindings/build makes. INTAGLIO_LIB_DIR says which folder it is in; without it, bindings/out.
use std::env::var;
use std::path::Path;

fn main() {
    println!("cargo::rerun-if-env-changed=INTAGLIO_LIB_DIR");
    let folder =
        var("INTAGLIO_LIB_DIR").unwrap_or_else(|_| format!("{}/../out", var("CARGO_MANIFEST_DIR").expect("cargo sets it")));
    println!("cargo::rerun-if-changed={folder}/libintaglio.a");
    // (the documentation is built without the library)
    if !Path::new(&folder).join("libintaglio.a").exists() && var("DOCS_RS").is_err() {
        println!("cargo::error=libintaglio.a isn't in {folder}");
        println!("cargo::error=build it with bindings/build, or set INTAGLIO_LIB_DIR to the folder that it is in");
        return;
    }
    println!("cargo::rustc-link-search=native={folder}");
    println!("cargo::rustc-link-lib=static=intaglio");
}
