//! Links the engine's archive, `libexports.a`, from the folder that MESTECUR_LIB names by its full
//! path, or else from the installation that pkg-config finds (tools/install).

use std::env;
use std::process::Command;

/// The folder of the archive in the installation that pkg-config finds.
fn installed() -> Option<String> {
    let told = Command::new("pkg-config")
        .args(["--variable=libdir", "mestecur"])
        .output()
        .ok()?;
    let folder = String::from_utf8(told.stdout).ok()?;
    told.status.success().then(|| folder.trim().to_string())
}

fn main() {
    println!("cargo:rerun-if-env-changed=MESTECUR_LIB");
    println!("cargo:rerun-if-env-changed=PKG_CONFIG_PATH");
    let Some(folder) = env::var("MESTECUR_LIB").ok().or_else(installed) else {
        panic!(
            "no archive: MESTECUR_LIB is to name the folder of libexports.a, which tools/archive \
             writes, or PKG_CONFIG_PATH that of mestecur.pc, which tools/install writes"
        );
    };
    println!("cargo:rerun-if-changed={folder}/libexports.a");
    println!("cargo:rustc-link-search=native={folder}");
    println!("cargo:rustc-link-lib=static=exports");
}
