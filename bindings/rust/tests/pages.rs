//! What the repository has in writing: the stored scripts with their answers, and the examples of README.md.
use pidtab::{LineError, Table};
use std::path::{Path, PathBuf};
use std::process::Command;
use std::{env, fs};

fn read(name: &str) -> String {
    let path = Path::new(env!("CARGO_MANIFEST_DIR"))
        .join("../..")
        .join(name);
    fs::read_to_string(&path).unwrap_or_else(|_| panic!("{}", path.display()))
}

/// The lines that a line of a stored file stands for: `3* child 2.. root 5` is three, in which the first number rises by one from each to the next.
fn lines_of(line: &str) -> Vec<String> {
    let run = line.split_once("* ");
    match run.and_then(|(count, form)| Some((count.parse::<u64>().ok()?, form))) {
        Some((count, form)) => (0..count).map(|step| risen(form, step)).collect(),
        None => vec![line.to_owned()],
    }
}

/// The line in which each number before two dots is greater by so much.
fn risen(form: &str, step: u64) -> String {
    let (mut line, mut rest) = (String::new(), form);
    while let Some((before, behind)) = rest.split_once("..") {
        let words = before.trim_end_matches(|it: char| it.is_ascii_digit());
        let number: u64 = before[words.len()..].parse().expect("a number");
        line += &format!("{words}{}", number + step);
        rest = behind;
    }
    line + rest
}

/// A stored file, each line written out.
fn stored(name: &str) -> String {
    let lines: Vec<_> = read(name).lines().flat_map(lines_of).collect();
    lines.join("\n") + "\n"
}

/// What the table writes for the stored scripts; the head of each is `# NAME PID_MAX`, and perhaps `listed`.
fn play(scripts: &str) -> String {
    let mut told = String::new();
    for script in scripts.split("# ").skip(1) {
        let (head, lines) = script.split_once('\n').expect("a head");
        let words: Vec<_> = head.split(' ').collect();
        let table = Table::open(words[1].parse().expect("pid_max")).expect("a table");
        told += &format!("# {head}\n");
        for line in lines.lines() {
            match table.line(line) {
                Ok(answer) => told += &format!("{answer}\n"),
                Err(LineError::Empty) => {}
                Err(fault) => told += &format!("{fault}\n"),
            }
        }
        if words.len() > 2 {
            told += &table.list().expect("a list");
        }
    }
    told
}

#[test]
fn the_stored_scripts() {
    let told = play(&stored("stored/scripts"));
    let wanted = stored("stored/answers");
    for (line, wanted) in told.lines().zip(wanted.lines()) {
        assert_eq!(line, wanted);
    }
    assert_eq!(told.len(), wanted.len());
}

/// The block of the kind in a section of README.md.
fn block(title: &str, kind: &str) -> String {
    let page = read("bindings/rust/README.md");
    let (_, section) = page.split_once(&format!("\n## {title}\n")).expect(title);
    let (_, behind) = section.split_once(&format!("```{kind}\n")).expect(kind);
    behind.split_once("```\n").expect("its end").0.to_owned()
}

/// An example, where cargo builds it beside the tests.
fn built(name: &str) -> PathBuf {
    let test = env::current_exe().expect("this test");
    let folder = test.ancestors().nth(2).expect("cargo's folder");
    folder.join("examples").join(name)
}

/// The example prints that.
fn prints(name: &str, wanted: &str) {
    let mut example = Command::new(built(name));
    let done = example.current_dir(env!("CARGO_TARGET_TMPDIR")).output();
    let done = done.expect("the example");
    let said = String::from_utf8(done.stdout).expect("text");
    assert_eq!((done.status.success(), &*said), (true, wanted));
}

#[test]
fn the_example_of_the_page() {
    let code = read("bindings/rust/examples/containers.rs");
    let (_, code) = code.split_once('\n').expect("a head");
    assert_eq!(code, block("Example", "rust"));
    prints("containers", &block("Example", "text"));
}

#[test]
fn the_examples_print_what_is_said_at_their_ends() {
    for name in ["dump", "saved", "threads"] {
        let code = read(&format!("bindings/rust/examples/{name}.rs"));
        let (_, end) = code
            .split_once("\n// It prints\n//\n")
            .expect("what it prints");
        let wanted: String = end
            .split_inclusive('\n')
            .map(|line| line.strip_prefix("//     ").expect("a line of it"))
            .collect();
        prints(name, &wanted);
    }
}
