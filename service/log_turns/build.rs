//! Finds the proved machine, liblog_turns.a: in the folder that PIDTAB_LIB_DIR names, else in out/ of the repository, where `make lib` builds it.
use std::env;
use std::path::PathBuf;

fn main() {
    println!("cargo:rerun-if-env-changed=PIDTAB_LIB_DIR");
    let here = env::var_os("CARGO_MANIFEST_DIR").map_or_else(PathBuf::new, PathBuf::from);
    let named = env::var_os("PIDTAB_LIB_DIR").filter(|it| !it.is_empty());
    let folder = here.join(named.as_deref().unwrap_or("../../out".as_ref()));
    println!("cargo:rerun-if-changed={}", folder.join("liblog_turns.a").display());
    if !folder.join("liblog_turns.a").is_file() {
        println!("cargo:warning=no liblog_turns.a in {}: build it with `make lib`", folder.display());
    }
    println!("cargo:rustc-link-search=native={}", folder.display());
    println!("cargo:rustc-link-lib=static=log_turns");
}
