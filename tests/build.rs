//! Tells the linker where `libbend_c.a` lies: in the folder that the
//! environment variable BEND_LIB_DIR names. Without it only the model builds.
//! For the tests and for bench/.

use std::env;

fn main() {
    println!("cargo:rerun-if-env-changed=BEND_LIB_DIR");
    if let Ok(folder) = env::var("BEND_LIB_DIR") {
        println!("cargo:rustc-link-search=native={folder}");
        println!("cargo:rerun-if-changed={folder}/libbend_c.a");
    }
}
