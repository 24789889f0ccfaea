//! Finds `libsubst.a`: in the directory `SUBST_LIB_DIR`, in `lib` of this package, or by `pkg-config`.

use std::env;
use std::path::{Path, PathBuf};
use std::process::{exit, Command};

/// The oldest version of the library that has all calls of this crate.
const VERSION: &str = "0.3.0";

fn main() {
    println!("cargo:rerun-if-env-changed=SUBST_LIB_DIR");
    println!("cargo:rerun-if-env-changed=PKG_CONFIG_PATH");
    // On another target the crate itself is an error, and documentation needs no library.
    if !is_supported() || env::var_os("DOCS_RS").is_some() {
        return;
    }
    match directory() {
        Ok(found) => {
            println!("cargo:rerun-if-changed={}", archive_in(&found).display());
            println!("cargo:rustc-link-search=native={}", found.display());
            println!("cargo:rustc-link-lib=static=subst");
        }
        Err(message) => {
            eprintln!("error: {message}");
            exit(1);
        }
    }
}

/// Returns whether the library can be linked for the target.
fn is_supported() -> bool {
    let target = ["ARCH", "OS", "POINTER_WIDTH"].map(|part| env::var(format!("CARGO_CFG_TARGET_{part}")));
    target.map(Result::unwrap_or_default) == ["x86_64", "linux", "64"]
}

/// Returns the directory that has the archive, or a message if there is none.
fn directory() -> Result<PathBuf, String> {
    if let Some(named) = env::var_os("SUBST_LIB_DIR").map(PathBuf::from) {
        return match archive_in(&named).is_file() {
            true => Ok(named),
            false => Err(format!(
                "SUBST_LIB_DIR: {} isn't there",
                archive_in(&named).display()
            )),
        };
    }
    let packed = Path::new(&env::var_os("CARGO_MANIFEST_DIR").unwrap_or_default()).join("lib");
    if archive_in(&packed).is_file() {
        return Ok(packed);
    }
    let found = installed().filter(|found| archive_in(found).is_file());
    found.ok_or_else(|| {
        let message =
            "no libsubst.a: set SUBST_LIB_DIR to its directory, or PKG_CONFIG_PATH to that of subst.pc";
        format!("{message} {VERSION}")
    })
}

/// Returns the directory of the library that `pkg-config` finds.
fn installed() -> Option<PathBuf> {
    let program = env::var_os("PKG_CONFIG").unwrap_or_else(|| "pkg-config".into());
    let run = |option: &str| Command::new(&program).args([option, "subst"]).output().ok();
    if !run(&format!("--atleast-version={VERSION}"))?.status.success() {
        return None;
    }
    let printed = String::from_utf8(run("--variable=libdir")?.stdout).ok()?;
    Some(PathBuf::from(printed.trim()))
}

fn archive_in(directory: &Path) -> PathBuf {
    directory.join("libsubst.a")
}
