// Links the proved libraries, which `tools/staticlib` leaves in target/staticlib: `bench` the leaves, the other programs the C interface.
fn main() {
    let folder = format!("{}/../target/staticlib", std::env::var("CARGO_MANIFEST_DIR").unwrap());
    let interface = ["calls", "routes", "two_patterns", "lacking", "lending"].map(|program| (program, "rlc_c"));
    for (program, library) in [("bench", "bench_c")].into_iter().chain(interface) {
        println!("cargo:rustc-link-arg-bin={program}={folder}/lib{library}.a");
        println!("cargo:rerun-if-changed={folder}/lib{library}.a");
    }
}
