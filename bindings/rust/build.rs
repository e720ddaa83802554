//! Links `libwenqolo.a` of the folder that CAMEL_LIB_DIR names. Without it that is `../../out/library`, or where the
//! library is installed.
use std::path::PathBuf;

/// Where `make install` and the Debian package libwenqolo-dev put the library.
const INSTALLED: [&str; 2] = ["/usr/local/lib", "/usr/lib/x86_64-linux-gnu"];

fn main() {
    println!("cargo:rerun-if-env-changed=CAMEL_LIB_DIR");
    let folders = match std::env::var_os("CAMEL_LIB_DIR") {
        Some(folder) => vec![absolute(PathBuf::from(folder))],
        None => unnamed(),
    };
    let has_archive = |folder: &&PathBuf| folder.join("libwenqolo.a").exists();
    let folder = folders.iter().find(has_archive).unwrap_or(&folders[0]);
    // Cargo builds anew each time if a file that it is told of is not there, so it is told of no other folder.
    let archive = folder.join("libwenqolo.a");
    println!("cargo:rerun-if-changed={}", archive.display());
    if !archive.exists() {
        println!(
            "cargo:warning={} is not there; CAMEL_LIB_DIR names its folder",
            archive.display()
        );
    }
    println!("cargo:rustc-link-search=native={}", folder.display());
    println!("cargo:rustc-link-lib=static=wenqolo");
}

/// The folders that are looked in, in this order, if none is named.
fn unnamed() -> Vec<PathBuf> {
    let built = PathBuf::from(env!("CARGO_MANIFEST_DIR")).join("../../out/library");
    let installed = INSTALLED.iter().map(PathBuf::from);
    std::iter::once(built).chain(installed).collect()
}

/// The path, if it does not depend on the folder that it is read in, which is another one here than in the shell.
fn absolute(folder: PathBuf) -> PathBuf {
    assert!(
        folder.is_absolute(),
        "CAMEL_LIB_DIR is not an absolute path: {}",
        folder.display()
    );
    folder
}
