// Links the library under test, which `tools/staticlib rlc_c` leaves in target/staticlib/.
fn main() {
    let folder = format!("{}/../target/staticlib", std::env::var("CARGO_MANIFEST_DIR").unwrap());
    println!("cargo:rustc-link-search=native={folder}");
    println!("cargo:rustc-link-lib=static=rlc_c");
    println!("cargo:rerun-if-changed=build.rs");
    println!("cargo:rerun-if-changed={folder}/librlc_c.a");
}
