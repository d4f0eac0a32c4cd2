//! Links the static library of the proved calls.

fn main() {
    let folder = std::env::var("CARGO_MANIFEST_DIR").expect("cargo sets this");
    println!("cargo:rustc-link-search=native={folder}/../target/staticlib");
    println!("cargo:rustc-link-lib=static=c_calls");
    println!("cargo:rerun-if-changed=../target/staticlib/libc_calls.a");
}
