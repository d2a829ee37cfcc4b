//! Compiles `lemon/preflow.cpp` and sets the cfg `lemon`, where there are a C++ compiler, `c++` or
//! what the environment variable CXX names, and LEMON's headers. Where one of them is missing, the
//! benchmark is built without LEMON.

use std::path::{Path, PathBuf};
use std::process::{Command, Stdio};
use std::{env, fs};

const COMPILER: &str = "CXX";

/// The compiler finds headers there too.
const HEADERS: &str = "CPLUS_INCLUDE_PATH";

/// Where Debian's package has it. Named only so that cargo notices when it goes.
const DEBIAN_HEADER: &str = "/usr/include/lemon/preflow.h";

const SOURCE: &str = "lemon/preflow.cpp";

fn main() {
    println!("cargo::rustc-check-cfg=cfg(lemon)");
    println!("cargo::rerun-if-env-changed={COMPILER}");
    println!("cargo::rerun-if-env-changed={HEADERS}");
    println!("cargo::rerun-if-changed={SOURCE}");
    let folder = env::var_os("OUT_DIR").expect("cargo names the folder to write to");
    let folder = PathBuf::from(folder);
    if is_installed(&folder) {
        link(&folder);
        println!("cargo::rustc-cfg=lemon");
        println!("cargo::rerun-if-changed={DEBIAN_HEADER}");
    } else {
        // No such file is ever made, so that cargo looks for LEMON anew at each build.
        let never = folder.join("never");
        println!("cargo::rerun-if-changed={}", never.display());
    }
}

/// Whether a program of one line that asks for LEMON's header compiles.
fn is_installed(folder: &Path) -> bool {
    let program = folder.join("probe.cpp");
    fs::write(&program, "#include <lemon/preflow.h>\n").expect("the folder can be written to");
    succeeds(
        compiler()
            .arg("-fsyntax-only")
            .arg(program)
            .stderr(Stdio::null()),
    )
}

/// Links the C++ file, and what C++ itself needs.
fn link(folder: &Path) {
    let (object, archive) = (folder.join("preflow.o"), folder.join("libpreflow.a"));
    let mut compile = compiler();
    compile
        .args(["-O3", "-fPIC", "-c", SOURCE, "-o"])
        .arg(&object);
    assert!(succeeds(&mut compile), "{SOURCE} does not compile");
    let mut pack = Command::new("ar");
    pack.arg("crs").arg(archive).arg(object);
    assert!(
        succeeds(&mut pack),
        "the compiled {SOURCE} cannot be archived"
    );
    println!("cargo::rustc-link-search=native={}", folder.display());
    println!("cargo::rustc-link-lib=static=preflow");
    println!("cargo::rustc-link-lib=stdc++");
}

/// LEMON is older than C++20 and uses what that took out.
fn compiler() -> Command {
    let mut compiler = Command::new(env::var_os(COMPILER).unwrap_or_else(|| "c++".into()));
    compiler.arg("-std=c++14");
    compiler
}

fn succeeds(command: &mut Command) -> bool {
    command.status().is_ok_and(|status| status.success())
}
