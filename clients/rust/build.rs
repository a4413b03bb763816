//! Links libcaladan_c.a and the heap, from the folder that CALADAN_LIB names.
fn main() {
    println!("cargo:rerun-if-env-changed=CALADAN_LIB");
    if let Ok(folder) = std::env::var("CALADAN_LIB") {
        println!("cargo:rustc-link-search=native={folder}");
    }
    println!("cargo:rustc-link-lib=static=caladan_c");
    println!("cargo:rustc-link-lib=static=libc_c");
}
