//! Hands the two folders that the script `run` names to the compiler.

fn main() {
    let sources = folder("TOKENIZERS_SRC");
    let library = folder("ZULMYREN_LIB");
    println!("cargo:rustc-env=TOKENIZERS_SRC={sources}");
    println!("cargo:rustc-link-search=native={library}");
    println!("cargo:rerun-if-changed={library}/libzulmyren.a");
    println!("cargo:rerun-if-changed=build.rs");
}

fn folder(variable: &str) -> String {
    println!("cargo:rerun-if-env-changed={variable}");
    std::env::var(variable).unwrap_or_else(|_| panic!("{variable} is not set: build with compare/run"))
}
