//! Hands the engine's static library, named by CUSPHEWA_LIB, to the fuzz program's linker.

fn main() {
    println!("cargo:rerun-if-env-changed=CUSPHEWA_LIB");
    if std::env::var_os("CARGO_FEATURE_ENGINE").is_none() {
        return;
    }
    let library = std::env::var("CUSPHEWA_LIB")
        .expect("CUSPHEWA_LIB must name the static library to be tested");
    let library = std::fs::canonicalize(&library)
        .unwrap_or_else(|error| panic!("CUSPHEWA_LIB={library}: {error}"));
    println!("cargo:rerun-if-changed={}", library.display());
    println!("cargo:rustc-link-arg-bin=fuzz={}", library.display());
}
