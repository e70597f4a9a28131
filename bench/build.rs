//! Compiles the implementations in C, by loops and by masks, each by gcc and by clang, and links all four.

use std::path::Path;
use std::process::{exit, Command};

fn main() {
    println!("cargo:rerun-if-changed=plain");
    for method in ["loops", "masks"] {
        for compiler in ["gcc", "clang"] {
            println!("cargo:rustc-link-arg={}", compiled(method, compiler));
        }
    }
}

/// The object of an implementation by a compiler. Ends the build, with a message, where there is none.
fn compiled(method: &str, compiler: &str) -> String {
    let folder = std::env::var("OUT_DIR").expect("cargo names the folder");
    let build = format!("{method}_{compiler}");
    let object = Path::new(&folder).join(format!("{build}.o")).display().to_string();
    // Position independent, as Rust links its programs.
    let status = Command::new(compiler)
        .args(["-std=c11", "-O3", "-fPIE", "-c", "plain/services.c", "-o", &object])
        .args(["-Iplain", &format!("-Iplain/{method}"), &format!("-DBUILD={build}")])
        .status();
    match status {
        Ok(status) if status.success() => object,
        Ok(status) => fail(&format!("{compiler} failed on bench/plain: {status}")),
        Err(error) => fail(&format!("{compiler} cannot be run ({error}): install the package {compiler}")),
    }
}

fn fail(message: &str) -> ! {
    eprintln!("bench: {message}");
    exit(1)
}
