//! Finds the archive: the folder that OBERKOSZ_LIB names has liboberkosz.a (`make lib`) or
//! libshelf.a (`tools/library target/staticlib/libshelf.a`, as the tests make it).

use std::env;
use std::path::Path;

fn main() {
    println!("cargo:rerun-if-changed=build.rs");
    println!("cargo:rerun-if-env-changed=OBERKOSZ_LIB");
    let folder = env::var("OBERKOSZ_LIB").expect(
        "set OBERKOSZ_LIB to the folder that has liboberkosz.a; `make lib` makes target/lib",
    );
    let archive = |name: &str| Path::new(&folder).join(format!("lib{name}.a"));
    let name = ["oberkosz", "shelf"]
        .into_iter()
        .find(|name| archive(name).is_file())
        .unwrap_or_else(|| panic!("there is no liboberkosz.a in {folder}"));
    println!("cargo:rerun-if-changed={}", archive(name).display());
    println!("cargo:rustc-link-search=native={folder}");
    println!("cargo:rustc-link-lib=static={name}");
}
