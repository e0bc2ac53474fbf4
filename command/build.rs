// Links the proved archive that `make` left, and takes the version from the header, where it stands once.
use std::path::Path;

const VERSION: &str = "#define BURRBEECH_VERSION \"";

fn main() {
    let here = std::env::var("CARGO_MANIFEST_DIR").expect("cargo says where the package is");
    let root = Path::new(&here).parent().expect("the repository's root");
    let (header, archive) = (root.join("include/burrbeech.h"), root.join("target/lib/libburrbeech.a"));
    println!("cargo:rerun-if-changed={}", header.display());
    println!("cargo:rerun-if-changed={}", archive.display());
    assert!(archive.is_file(), "{} is not there: run `make` first", archive.display());
    println!("cargo:rustc-link-search=native={}", root.join("target/lib").display());
    println!("cargo:rustc-link-lib=static=burrbeech");
    let text = std::fs::read_to_string(&header).expect("include/burrbeech.h");
    let version = text.lines().find_map(|line| line.trim().strip_prefix(VERSION)?.strip_suffix('"'));
    println!("cargo:rustc-env=BURRBEECH_VERSION={}", version.expect("BURRBEECH_VERSION in include/burrbeech.h"));
}
