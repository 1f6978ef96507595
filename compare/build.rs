//! Links `hold` and `measure` with the static library of the proved gauges.
//! PERREZKUN_STATICLIB names its folder; the default is `../crates/c_interface/out`.

fn main() {
    let here = std::env::var("CARGO_MANIFEST_DIR").unwrap_or_default();
    let folder = std::env::var("PERREZKUN_STATICLIB").unwrap_or_else(|_| format!("{here}/../crates/c_interface/out"));
    for program in ["hold", "measure"] {
        println!("cargo:rustc-link-arg-bin={program}={folder}/libc_interface.a");
    }
    println!("cargo:rerun-if-env-changed=PERREZKUN_STATICLIB");
    println!("cargo:rerun-if-changed={folder}/libc_interface.a");
}
