// Compiles the plain C with gcc -O3.
use std::process::Command;

fn run(command: &mut Command) {
    let status = command.status().expect("gcc and ar are installed");
    assert!(status.success(), "{command:?} failed");
}

fn main() {
    let out = std::env::var("OUT_DIR").expect("cargo sets OUT_DIR");
    println!("cargo:rerun-if-changed=plain.c");
    let flags = ["-O3", "-std=c11", "-Wall", "-Wextra", "-Wpedantic", "-Wconversion", "-Werror", "-c", "plain.c", "-o"];
    run(Command::new("gcc").args(flags).arg(format!("{out}/plain.o")));
    run(Command::new("ar").arg("rcs").arg(format!("{out}/libplain.a")).arg(format!("{out}/plain.o")));
    println!("cargo:rustc-link-search=native={out}");
    println!("cargo:rustc-link-lib=static=plain");
}
