//! Finds the product's static library.

use std::env;
use std::path::PathBuf;

fn main() {
    println!("cargo::rerun-if-env-changed=NUVKERD_LIB");
    let here = PathBuf::from(env::var_os("CARGO_MANIFEST_DIR").expect("cargo names the folder"));
    let lib = env::var_os("NUVKERD_LIB").map_or(here.join("../crates/driver/out"), |path| here.join(path));
    let driver = lib.join("libdriver.a");
    println!("cargo::rerun-if-changed={}", driver.display());
    if !driver.exists() {
        println!("cargo::warning={} is not there: only `cargo test --lib` will link", driver.display());
        return;
    }
    println!("cargo::rustc-link-search=native={}", lib.display());
    println!("cargo::rustc-link-lib=static=driver");
}
