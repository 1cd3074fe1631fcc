//! Tells the linker where the proved archive (libexports.a) stands. The two programs ask for the archive itself in `proved.rs`, so
//! that the library and its tests are built without it.

fn main() {
    println!("cargo:rerun-if-env-changed=ZRN_ARCHIVE_DIR");
    println!("cargo:rerun-if-changed=build.rs");
    if let Ok(folder) = std::env::var("ZRN_ARCHIVE_DIR") {
        println!("cargo:rustc-link-search=native={folder}");
        println!("cargo:rerun-if-changed={folder}/libexports.a");
    }
}
