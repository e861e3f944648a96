//! Builds the library of its sources, by the C compiler: the proved functions as assembler, and the C around them.
use std::env;

const MACHINES: [&str; 3] = ["x86_64", "aarch64", "riscv64"];
const FILES: [&str; 9] = [
    "pidtab.S",
    "host_calls.S",
    "heap.c",
    "guard.c",
    "guard_replica.c",
    "settings.c",
    "follow.c",
    "threads.c",
    "saved_file.c",
];

/// Whether the library was built: it is for Linux on some machines.
pub fn build() -> bool {
    let target = |name| env::var(format!("CARGO_CFG_TARGET_{name}")).unwrap_or_default();
    if target("OS") != "linux" || !MACHINES.contains(&target("ARCH").as_str()) {
        return false;
    }
    let mut build = cc::Build::new();
    build.include("c").opt_level(2).flag("-pthread");
    for name in FILES {
        println!("cargo:rerun-if-changed=c/{name}");
        build.file(format!("c/{name}"));
    }
    build.compile("pidtab");
    true
}
