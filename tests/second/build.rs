// Links the proved code where the feature `proved` asks for it: the library that `make` left, and the leaves' faces as `rt lib` left them.
const ARCHIVES: [(&str, &str); 2] = [("target/lib", "burrbeech"), ("crates/outside/out", "outside")];

fn main() {
    if std::env::var_os("CARGO_FEATURE_PROVED").is_none() {
        return;
    }
    let here = std::env::var("CARGO_MANIFEST_DIR").unwrap();
    for (folder, name) in ARCHIVES {
        let libs = format!("{here}/../../{folder}");
        println!("cargo:rustc-link-search=native={libs}");
        println!("cargo:rustc-link-lib=static={name}");
        println!("cargo:rerun-if-changed={libs}/lib{name}.a");
    }
}
