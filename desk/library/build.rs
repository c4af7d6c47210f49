//! Links `libnuldwich.a` from the directory named by NULDWICH_LIB_DIR.

use std::env;

fn main() {
    println!("cargo:rerun-if-env-changed=NULDWICH_LIB_DIR");
    let directory = env::var("NULDWICH_LIB_DIR").expect("NULDWICH_LIB_DIR names the directory of libnuldwich.a");
    println!("cargo:rerun-if-changed={directory}/libnuldwich.a");
    println!("cargo:rustc-link-search=native={directory}");
    println!("cargo:rustc-link-lib=static=nuldwich");
}
