// Links libhaskumye.a, which `make` writes to target/. HASKUMYE_LIB_DIR names another folder, by its absolute path: this program and the linker
// run in different folders.
use std::path::PathBuf;

fn main() {
    println!("cargo:rerun-if-env-changed=HASKUMYE_LIB_DIR");
    let target = |name: &str| std::env::var(name).unwrap_or_default();
    assert!(
        target("CARGO_CFG_TARGET_OS") == "linux" && target("CARGO_CFG_TARGET_ARCH") == "x86_64",
        "haskumye is for Linux on x86-64 alone, not for {}: its compiler has no other target yet",
        target("TARGET")
    );
    let folder = match std::env::var_os("HASKUMYE_LIB_DIR") {
        Some(folder) => PathBuf::from(folder),
        None => PathBuf::from(std::env::var_os("CARGO_MANIFEST_DIR").expect("cargo sets CARGO_MANIFEST_DIR")).join("../../target"),
    };
    assert!(folder.is_absolute(), "HASKUMYE_LIB_DIR is {}, and must be an absolute path", folder.display());
    let archive = folder.join("libhaskumye.a");
    println!("cargo:rerun-if-changed={}", archive.display());
    assert!(archive.is_file(), "{} is missing: run make, or let HASKUMYE_LIB_DIR name its folder", archive.display());
    println!("cargo:rustc-link-search=native={}", folder.display());
    println!("cargo:rustc-link-lib=static=haskumye");
}
