//! Links the static libraries that `rt lib` wrote.

fn main() {
    let root = std::env::var("CARGO_MANIFEST_DIR").expect("cargo says where the project lies");
    for library in [
        "queue_bench",
        "state_bench",
        "service_bench",
        "calls_bench",
    ] {
        let folder = format!("{root}/../crates/{library}/out");
        println!("cargo:rustc-link-search=native={folder}");
        println!("cargo:rustc-link-lib=static={library}");
        println!("cargo:rerun-if-changed={folder}/lib{library}.a");
    }
}
