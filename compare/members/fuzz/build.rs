//! Links libFuzzer's runtime, which has the main function.

use std::env;

fn main() {
    println!("cargo::rerun-if-changed=build.rs");
    println!("cargo::rerun-if-env-changed=FUZZER_RUNTIME");
    match env::var("FUZZER_RUNTIME") {
        Ok(runtime) => {
            println!("cargo::rustc-link-arg={runtime}");
            println!("cargo::rustc-link-arg=-lstdc++");
        }
        // Cargo fails the build for this line; a failing status would add a dozen more.
        Err(_) => println!("cargo::error=no FUZZER_RUNTIME; compare/fuzz builds this"),
    }
}
