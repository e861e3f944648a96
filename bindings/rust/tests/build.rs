//! Where the library is found, and that without it all works but linking: by a copy of the crate in a folder of its own.
use std::path::{Path, PathBuf};
use std::process::{Command, Output};
use std::{env, fs};

/// A copy of the crate, which lies in no repository, so its library is that of a variable or of pkg-config.
struct Copy {
    folder: PathBuf,
}

impl Copy {
    fn new(name: &str) -> Copy {
        let folder = env::temp_dir().join(format!("pidtab {name} {}", std::process::id()));
        let here = Path::new(env!("CARGO_MANIFEST_DIR"));
        for part in ["src", "examples", "pkgconfig"] {
            fs::create_dir_all(folder.join("a/b").join(part)).expect("a folder");
        }
        for part in ["src", "examples", ""] {
            for entry in fs::read_dir(here.join(part)).expect("the crate") {
                let path = entry.expect("an entry").path();
                if path.is_file() {
                    let to = folder
                        .join("a/b")
                        .join(part)
                        .join(path.file_name().expect("a name"));
                    fs::copy(&path, to).expect("a copy");
                }
            }
        }
        Copy { folder }
    }

    /// What cargo does there, where pkg-config looks in one folder alone.
    fn cargo(&self, words: &[&str], lib_dir: &str) -> Output {
        let here = self.folder.join("a/b");
        Command::new(env!("CARGO"))
            .args(words)
            .arg("--offline")
            .current_dir(&here)
            .env("CARGO_TARGET_DIR", here.join("target"))
            .env("PKG_CONFIG_LIBDIR", here.join("pkgconfig"))
            .env("PKG_CONFIG_PATH", "")
            .env("LD_LIBRARY_PATH", built())
            .env("PIDTAB_LIB_DIR", lib_dir)
            .output()
            .expect("cargo")
    }

    /// Has pkg-config find the library of the repository.
    fn install(&self) {
        let text =
            fs::read_to_string(Path::new(env!("CARGO_MANIFEST_DIR")).join("../c/pidtab.pc.in"))
                .expect("a .pc");
        let text = text.replace("${prefix}/lib", &built().display().to_string());
        fs::write(self.folder.join("a/b/pkgconfig/pidtab.pc"), text).expect("a .pc");
    }
}

impl Drop for Copy {
    fn drop(&mut self) {
        let _ = fs::remove_dir_all(&self.folder);
    }
}

/// Where the library of these tests is.
fn built() -> PathBuf {
    let named = env::var_os("PIDTAB_LIB_DIR").filter(|it| !it.is_empty());
    Path::new(env!("CARGO_MANIFEST_DIR")).join(named.unwrap_or("../../out".into()))
}

fn said(done: &Output) -> String {
    String::from_utf8_lossy(&done.stderr).into_owned()
}

/// A command that ends well, and warns that there is no library.
fn warns(copy: &Copy, words: &[&str], lib_dir: &str, folder: &str) {
    let done = copy.cargo(words, lib_dir);
    let told = said(&done);
    assert!(done.status.success(), "{words:?}: {told}");
    assert!(
        told.contains(concat!(
            "warning: pidtab@",
            env!("CARGO_PKG_VERSION"),
            ": no library in "
        )) && told.contains("build it with `make lib`"),
        "{told}"
    );
    assert!(told.contains(folder), "{told}");
}

#[test]
fn without_the_library_all_works_but_linking() {
    let copy = Copy::new("without");
    warns(&copy, &["check", "--all-targets"], "", "out:");
    warns(&copy, &["doc", "--no-deps"], "", "out:");
    warns(&copy, &["build", "--lib"], "", "out:");
    let done = copy.cargo(&["build", "--examples"], "");
    assert!(
        !done.status.success() && said(&done).contains("-lpidtab"),
        "{}",
        said(&done)
    );
}

#[test]
fn pkg_config_finds_it_and_a_named_folder_wins() {
    if Command::new("pkg-config")
        .arg("--version")
        .output()
        .is_err()
    {
        eprintln!("skipped: no pkg-config");
        return;
    }
    let copy = Copy::new("installed");
    copy.install();
    let done = copy.cargo(&["run", "--example", "containers"], "");
    assert!(done.status.success(), "{}", said(&done));
    assert!(String::from_utf8_lossy(&done.stdout).starts_with("Child { number: 2, root: 2 }\n"));
    assert!(!said(&done).contains("warning"), "{}", said(&done));
    warns(&copy, &["check"], "/no/such/folder", "/no/such/folder:");
}
