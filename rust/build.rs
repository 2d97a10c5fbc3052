//! Links the proved library.

/// The folder that has libhumpelkaas.a: HUMPELKAAS_LIB says it, else it is where `make` puts it in this repository.
fn folder() -> String {
    println!("cargo:rerun-if-env-changed=HUMPELKAAS_LIB");
    std::env::var("HUMPELKAAS_LIB").unwrap_or_else(|_| concat!(env!("CARGO_MANIFEST_DIR"), "/../target/lib").to_string())
}

fn main() {
    let folder = folder();
    if !std::path::Path::new(&folder).join("libhumpelkaas.a").is_file() {
        eprintln!("There is no libhumpelkaas.a in {folder}: run `make library`, or set HUMPELKAAS_LIB to the folder that has it.");
        std::process::exit(1);
    }
    println!("cargo:rustc-link-search=native={folder}");
    println!("cargo:rustc-link-lib=static=humpelkaas");
    println!("cargo:rerun-if-changed={folder}/libhumpelkaas.a");
}
