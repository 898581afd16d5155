//! Finds `libyektrod.a`, in the directory that `YEKTROD_LIB_DIR` names or else by `pkg-config`.
use std::env;
use std::path::PathBuf;
use std::process::{exit, Command};

const ARCHIVE: &str = "libyektrod.a";

fn main() {
    for name in ["YEKTROD_LIB_DIR", "PKG_CONFIG", "PKG_CONFIG_PATH"] {
        println!("cargo:rerun-if-env-changed={name}");
    }
    let found = match env::var_os("YEKTROD_LIB_DIR") {
        Some(directory) => vec![PathBuf::from(directory)],
        None => told_by_pkg_config(),
    };
    match found.iter().find(|directory| directory.join(ARCHIVE).is_file()) {
        Some(directory) => {
            println!("cargo:rerun-if-changed={}", directory.join(ARCHIVE).display());
            println!("cargo:rustc-link-search=native={}", directory.display());
            println!("cargo:rustc-link-lib=static=yektrod");
        }
        None => {
            eprintln!(
                "yektrod: there is no {ARCHIVE}: set YEKTROD_LIB_DIR to its directory, or PKG_CONFIG_PATH to that of yektrod.pc"
            );
            exit(1);
        }
    }
}

/// The directories of libraries in `yektrod.pc`, none if there is no such file.
fn told_by_pkg_config() -> Vec<PathBuf> {
    let program = env::var_os("PKG_CONFIG").unwrap_or_else(|| "pkg-config".into());
    let mut command = Command::new(program);
    command.args(["--libs-only-L", "yektrod"]);
    // Those of the system are left out otherwise.
    command.env("PKG_CONFIG_ALLOW_SYSTEM_LIBS", "1");
    let told = match command.output() {
        Ok(output) if output.status.success() => output.stdout,
        _ => return Vec::new(),
    };
    let told = String::from_utf8_lossy(&told);
    told.split_whitespace().filter_map(|word| word.strip_prefix("-L")).map(PathBuf::from).collect()
}
