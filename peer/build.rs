//! Takes libreaperdecade.a into the package when the environment variable
//! RD_LIB_DIR names its directory, for the module `library`.
//!
//! A static library made by Rust brings parts of Rust's runtime with it, and
//! so does a binary. To keep the two apart, the library is first made one
//! object that shows only the functions of the C boundary.

use std::path::Path;
use std::process::Command;

const FUNCTIONS: [&str; 27] = [
    "rd_check",
    "rd_build",
    "rd_build_all",
    "rd_start",
    "rd_step",
    "rd_step_all",
    "rd_arrivals",
    "rd_gates",
    "rd_draft_make",
    "rd_draft_add",
    "rd_draft_remove",
    "rd_draft_move",
    "rd_draft_job",
    "rd_draft_core",
    "rd_draft_place",
    "rd_line",
    "rd_join",
    "rd_timer_start",
    "rd_timer_reading",
    "rd_timer_read",
    "rd_timer_write",
    "rd_timer_interrupt",
    "rd_modes_fresh",
    "rd_modes_hold",
    "rd_modes_start",
    "rd_modes_request",
    "rd_modes_step",
];

fn main() {
    println!("cargo:rustc-check-cfg=cfg(rd_lib)");
    println!("cargo:rerun-if-changed=build.rs");
    println!("cargo:rerun-if-env-changed=RD_LIB_DIR");
    if let Ok(directory) = std::env::var("RD_LIB_DIR") {
        let library = Path::new(&directory).join("libreaperdecade.a");
        println!("cargo:rerun-if-changed={}", library.display());
        println!("cargo:rustc-cfg=rd_lib");
        take(&library);
    }
}

/// Has the library linked, sealed if binutils can do it.
fn take(library: &Path) {
    let out = std::env::var("OUT_DIR").expect("cargo sets OUT_DIR");
    let directory = library.parent().expect("the library is in a directory");
    let (directory, name) = if seal(library, Path::new(&out)) {
        (Path::new(&out), "sealed")
    } else {
        (directory, "reaperdecade")
    };
    println!("cargo:rustc-link-search=native={}", directory.display());
    println!("cargo:rustc-link-lib=static={name}");
}

/// Writes libsealed.a: one object of the library that shows its C functions
/// only. Gives whether it could.
fn seal(library: &Path, out: &Path) -> bool {
    let object = out.join("reaperdecade.o");
    let mut link = Command::new("ld");
    link.args(["-r", "--force-group-allocation", "--gc-sections", "-o"]);
    link.arg(&object);
    link.args(FUNCTIONS.map(|name| format!("--undefined={name}")));
    link.arg(library);
    // What some compilers leave for others is of no use, and binutils may trip over it.
    let mut hide = Command::new("objcopy");
    hide.args([".llvmbc", ".llvmcmd"].map(|name| format!("--remove-section={name}")));
    hide.args(FUNCTIONS.map(|name| format!("--keep-global-symbol={name}")));
    hide.arg(&object);
    let mut archive = Command::new("ar");
    archive.arg("crs").arg(out.join("libsealed.a")).arg(&object);
    [link, hide, archive].into_iter().all(succeeds)
}

fn succeeds(mut command: Command) -> bool {
    match command.status() {
        Ok(status) if status.success() => true,
        outcome => {
            println!("cargo:warning={command:?}: {outcome:?}; linking the library as it is");
            false
        }
    }
}
