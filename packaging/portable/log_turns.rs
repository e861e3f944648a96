//! Compiles what the log does next: the proved functions as assembler.

fn main() {
    println!("cargo:rerun-if-changed=log_turns.S");
    cc::Build::new().file("log_turns.S").compile("log_turns");
}
