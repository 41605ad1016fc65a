//! Compiles blocks.c into the harness.

use std::process::Command;

fn main() {
    println!("cargo:rerun-if-changed=blocks.c");
    let out = std::env::var("OUT_DIR").expect("cargo sets OUT_DIR");
    let (object, archive) = (format!("{out}/blocks.o"), format!("{out}/libblocks.a"));
    let compile = "-c -O1 -Wall -Wextra -I../include blocks.c -o".split(' ');
    run(Command::new("clang").args(compile).arg(&object));
    run(Command::new("ar").arg("crs").arg(&archive).arg(&object));
    println!("cargo:rustc-link-search=native={out}");
    println!("cargo:rustc-link-lib=static=blocks");
}

fn run(command: &mut Command) {
    let status = command.status().expect("the command is there");
    assert!(status.success(), "{command:?}");
}
