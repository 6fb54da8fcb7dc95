//! PILQANDUR_LOOP is the folder of libloop.a: bench/loop.c, compiled.

fn main() {
    println!("cargo:rerun-if-env-changed=PILQANDUR_LOOP");
    let folder = std::env::var("PILQANDUR_LOOP").expect("PILQANDUR_LOOP names the folder of libloop.a");
    println!("cargo:rerun-if-changed={folder}/libloop.a");
    println!("cargo:rustc-link-search=native={folder}");
    println!("cargo:rustc-link-lib=static=loop");
}
