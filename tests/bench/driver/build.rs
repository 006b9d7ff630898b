//! Links the proved library, which BENCH_LIBRARY names by its folder.

fn main() {
    println!("cargo:rerun-if-env-changed=BENCH_LIBRARY");
    let folder = std::env::var("BENCH_LIBRARY").expect("BENCH_LIBRARY is the folder of libbench.a");
    println!("cargo:rerun-if-changed={folder}/libbench.a");
    println!("cargo:rustc-link-search=native={folder}");
    println!("cargo:rustc-link-lib=static=bench");
}
