//! Finds the library: in the folder that PIDTAB_LIB_DIR names; where none is named, in out/ of the repository, where `make lib` builds it. A release
//! builds it of its sources. Else it is where pkg-config finds an installed one. Where there is none it warns, and links what is not there: so all
//! works but linking.
use std::env;
use std::path::{Path, PathBuf};
use std::process::Command;

mod source;

fn main() {
    let variables = [
        "PIDTAB_LIB_DIR",
        "PKG_CONFIG",
        "PKG_CONFIG_PATH",
        "PKG_CONFIG_LIBDIR",
    ];
    for name in variables {
        println!("cargo:rerun-if-env-changed={name}");
    }
    let here = env::var_os("CARGO_MANIFEST_DIR").map_or_else(PathBuf::new, PathBuf::from);
    let named = env::var_os("PIDTAB_LIB_DIR").filter(|it| !it.is_empty());
    let folder = here.join(named.as_deref().unwrap_or("../../out".as_ref()));
    println!(
        "cargo:rerun-if-changed={}",
        folder.join("libpidtab.a").display()
    );
    if let Some(kind) = kind_in(&folder) {
        return link(&folder, kind);
    }
    if named.is_none() && source::build() {
        return;
    }
    if let Some(installed) = installed().filter(|_| named.is_none()) {
        return link(&installed, "dylib");
    }
    println!(
        "cargo:warning=no library in {}: build it with `make lib`, name its folder by PIDTAB_LIB_DIR, or install it \
         where pkg-config finds it; nothing can be linked without it",
        folder.display()
    );
    println!("cargo:rustc-link-lib=pidtab");
}

/// How the library in the folder is linked, if there is one: its archive before the shared one.
fn kind_in(folder: &Path) -> Option<&'static str> {
    let kinds = [("libpidtab.a", "static"), ("libpidtab.so", "dylib")];
    let found = kinds.iter().find(|it| folder.join(it.0).is_file())?;
    Some(found.1)
}

fn link(folder: &Path, kind: &str) {
    println!("cargo:rustc-link-search=native={}", folder.display());
    println!("cargo:rustc-link-lib={kind}=pidtab");
}

/// The folder of the library that pkg-config knows of.
fn installed() -> Option<PathBuf> {
    let command = env::var_os("PKG_CONFIG").unwrap_or("pkg-config".into());
    let told = Command::new(command)
        .args(["--variable=libdir", "pidtab"])
        .output()
        .ok()?;
    let folder = String::from_utf8(told.stdout).ok()?;
    let folder = folder.trim_end_matches('\n');
    (told.status.success() && !folder.is_empty()).then(|| folder.into())
}
