//! Links the archive that ./build makes.

fn main() {
    println!("cargo:rustc-link-search=native=../../target/bench");
    println!("cargo:rustc-link-lib=static=exports-native");
    println!("cargo:rerun-if-changed=../../target/bench/libexports-native.a");
}
