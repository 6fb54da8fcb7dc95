//! With the feature `linked`: PILQANDUR_DIR is the folder of the static libraries, PILQANDUR_LIBS their names, parted
//! by commas, the one with the exported functions first.

fn main() {
    println!("cargo:rerun-if-env-changed=PILQANDUR_DIR");
    println!("cargo:rerun-if-env-changed=PILQANDUR_LIBS");
    if std::env::var_os("CARGO_FEATURE_LINKED").is_none() {
        return;
    }
    let dir = std::env::var("PILQANDUR_DIR").expect("PILQANDUR_DIR names the folder of the static libraries");
    let names = std::env::var("PILQANDUR_LIBS").unwrap_or_else(|_| "pilqandur".to_string());
    println!("cargo:rustc-link-search=native={dir}");
    for name in names.split(',') {
        println!("cargo:rustc-link-lib=static={name}");
        println!("cargo:rerun-if-changed={dir}/lib{name}.a");
    }
}
