//! Links the engine's static library, where the feature `engine` asks for it.

use std::env;

fn main() {
    println!("cargo:rerun-if-env-changed=GILTHOREN_LIB");
    if env::var_os("CARGO_FEATURE_ENGINE").is_some() {
        let library = env::var("GILTHOREN_LIB").expect("GILTHOREN_LIB names libengine.a");
        println!("cargo:rerun-if-changed={library}");
        println!("cargo:rustc-link-arg-bins={library}");
    }
}
