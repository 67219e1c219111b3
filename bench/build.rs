//! Links the proved traffic, `crates/traffic/out/libtraffic.a`.

use std::env;

fn main() {
    let here = env::var("CARGO_MANIFEST_DIR").expect("cargo sets it");
    let proved = format!("{here}/../crates/traffic/out");
    println!("cargo:rustc-link-search=native={proved}");
    println!("cargo:rustc-link-lib=static=traffic");
    println!("cargo:rerun-if-changed={proved}/libtraffic.a");
}
