// Links the library that `make` left.
fn main() {
    let here = std::env::var("CARGO_MANIFEST_DIR").unwrap();
    let libs = format!("{here}/../../target/lib");
    println!("cargo:rustc-link-search=native={libs}");
    println!("cargo:rustc-link-lib=static=burrbeech");
    println!("cargo:rerun-if-changed={libs}/libburrbeech.a");
}
