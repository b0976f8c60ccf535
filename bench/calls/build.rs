// Compiles the portable C and links it.
use std::path::Path;
use std::process::Command;

fn run(command: &mut Command) {
    let status = command.status();
    assert!(status.is_ok_and(|s| s.success()), "{command:?} failed");
}

fn main() {
    let sources = Path::new(env!("CARGO_MANIFEST_DIR")).join("..");
    let out = std::env::var("OUT_DIR").expect("cargo sets OUT_DIR");
    let object = format!("{out}/plain.o");
    run(Command::new("cc")
        .args(["-O3", "-std=c99", "-Wall", "-Wextra", "-Werror", "-c", "-o"])
        .arg(&object)
        .arg(sources.join("plain.c")));
    run(Command::new("ar")
        .arg("rcs")
        .arg(format!("{out}/libplain.a"))
        .arg(&object));
    println!("cargo:rustc-link-search=native={out}");
    println!("cargo:rustc-link-lib=static=plain");
    for name in ["plain.c", "plain.h", "leaves.h"] {
        println!("cargo:rerun-if-changed={}", sources.join(name).display());
    }
}
