//! Links libperlenhuf.a and libprobe.a, from the folder that PERLENHUF_STATICLIB names.
fn main() {
    println!("cargo:rerun-if-env-changed=PERLENHUF_STATICLIB");
    let folder = std::env::var("PERLENHUF_STATICLIB").expect("PERLENHUF_STATICLIB is not set: use bench/run");
    println!("cargo:rustc-link-search=native={folder}");
    for name in ["perlenhuf", "probe"] {
        println!("cargo:rerun-if-changed={folder}/lib{name}.a");
        println!("cargo:rustc-link-lib=static={name}");
    }
}
