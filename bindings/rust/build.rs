//! Links the library that bindings/build lays into bindings/out.
use std::path::Path;
use std::process::exit;

fn main() {
    let out = concat!(env!("CARGO_MANIFEST_DIR"), "/../out");
    if !Path::new(out).join("libzemuschida.a").exists() {
        eprintln!("there is no {out}/libzemuschida.a: run bindings/build");
        exit(1);
    }
    println!("cargo:rustc-link-search=native={out}");
    println!("cargo:rustc-link-lib=static=zemuschida");
    println!("cargo:rerun-if-changed={out}/libzemuschida.a");
}
