//! Who may connect, and what he may do: words of `--allow`, and lines of `--allow-file`, which is read again at SIGHUP. The first that is of a user counts.
use crate::names::is_path;
use crate::options::Rights;
use crate::resp::number;
use nix::unistd::{Gid, Group, Uid, User};
use std::path::{Path, PathBuf};

/// No file has more bytes.
const LONGEST_FILE: u64 = 1 << 20;

#[derive(Clone, Debug, PartialEq)]
enum Who {
    User(u32),
    /// Who is in the group, by the number that the kernel reports, or by its list.
    Group {
        number: u32,
        members: Vec<u32>,
    },
}

/// What a word gives. A cgroup is meant by its id, or by the names on its path, by which it may be there later.
#[derive(Clone, Debug, PartialEq)]
enum Given {
    All,
    Asks,
    Below(u64),
    BelowPath(String),
}

#[derive(Clone, Debug, PartialEq)]
struct Line {
    who: Who,
    given: Given,
    /// Where it stands, and its word.
    place: String,
}

#[derive(Clone, Debug, Default, PartialEq)]
pub struct Allowed {
    words: Vec<Line>,
    file: Option<PathBuf>,
    lines: Vec<Line>,
}

impl Allowed {
    /// Those of the words, and of the file if there is one.
    pub fn read(words: &str, file: Option<PathBuf>) -> Result<Allowed, String> {
        let words = words.split(',').filter(|it| !it.is_empty()).map(|it| read_word("--allow", it));
        let lines = file.as_deref().map_or(Ok(Vec::new()), read_file)?;
        Ok(Allowed { words: words.collect::<Result<_, _>>()?, file, lines })
    }

    /// The same with the file as it is now.
    pub fn again(&self) -> Result<Allowed, String> {
        let path = self.file.as_deref().ok_or("there is no --allow-file to read again")?;
        Ok(Allowed { lines: read_file(path)?, ..self.clone() })
    }

    pub fn file(&self) -> Option<&Path> {
        self.file.as_deref()
    }

    /// Whether the mode of the socket alone says who may connect.
    pub fn is_open(&self) -> bool {
        self.words.is_empty() && self.file.is_none()
    }

    /// None: he may not connect. It finds the cgroup with a path.
    pub fn rights_of(&self, user: u32, group: u32, find: impl Fn(&str) -> Option<u64>) -> Option<Rights> {
        let is_his = |who: &Who| match who {
            Who::User(number) => *number == user,
            Who::Group { number, members } => *number == group || members.contains(&user),
        };
        let found = self.all().find(|it| is_his(&it.who)).map(|it| match &it.given {
            Given::All => Rights::All,
            Given::Asks => Rights::Asks,
            Given::Below(id) => Rights::Below(*id),
            Given::BelowPath(path) => find(path).map_or(Rights::BelowNone, Rights::Below),
        });
        found.or(self.is_open().then_some(Rights::All))
    }

    fn all(&self) -> impl Iterator<Item = &Line> {
        self.words.iter().chain(&self.lines)
    }

    /// The ids of cgroups, each with its place.
    pub fn controls(&self) -> impl Iterator<Item = (&str, u64)> {
        self.all().filter_map(|it| if let Given::Below(id) = it.given { Some((it.place.as_str(), id)) } else { None })
    }

    /// The paths of cgroups, each with its place.
    pub fn paths(&self) -> impl Iterator<Item = (&str, &str)> {
        self.all().filter_map(|it| {
            if let Given::BelowPath(path) = &it.given {
                Some((it.place.as_str(), path.as_str()))
            } else {
                None
            }
        })
    }
}

/// A word a line; what is behind a # is a comment.
fn read_file(path: &Path) -> Result<Vec<Line>, String> {
    let fault = |why: String| format!("{}: {why}", path.display());
    let about = std::fs::metadata(path).map_err(|error| fault(error.to_string()))?;
    if about.len() > LONGEST_FILE {
        return Err(fault(format!("has more than {LONGEST_FILE} bytes")));
    }
    let text = std::fs::read_to_string(path).map_err(|error| fault(error.to_string()))?;
    let words = text.lines().map(|it| it.split('#').next().unwrap_or_default().trim()).enumerate();
    let lines = words.filter(|it| !it.1.is_empty());
    lines.map(|(place, word)| read_word(&format!("{}: line {}", path.display(), place + 1), word)).collect()
}

/// The line of a word. What is wrong with it is a sentence, with its place.
fn read_word(place: &str, word: &str) -> Result<Line, String> {
    let place = format!("{place}: {word:?}");
    match read_pair(word) {
        Ok((who, given)) => Ok(Line { who, given, place }),
        Err(why) => Err(format!("{place}{why}")),
    }
}

/// `1000`, `alice:ro`, `%staff:below=5` or `%staff:below=/build/jobs`.
fn read_pair(word: &str) -> Result<(Who, Given), String> {
    let fault = || {
        " is none of UID, NAME or %GROUP, with :ro or :below=CGROUP behind, of which the cgroup is an id or a path"
            .to_owned()
    };
    let (who, rights) = word.split_once(':').unwrap_or((word, ""));
    let given = match rights.strip_prefix("below=") {
        Some(path) if is_path(path) => Given::BelowPath(path.to_owned()),
        Some(control) => Given::Below(number(control.as_bytes(), u64::MAX).ok_or_else(fault)?),
        None if rights == "ro" => Given::Asks,
        None if word.contains(':') => return Err(fault()),
        None => Given::All,
    };
    let read = |digits: &str| number(digits.as_bytes(), u64::from(u32::MAX)).map(|it| it as u32);
    let who = match (who.strip_prefix('%'), read(who)) {
        (Some(""), _) => return Err(fault()),
        (None, None) if !who.starts_with(|it: char| it.is_ascii_alphabetic() || it == '_') => return Err(fault()),
        (Some(group), _) => group_of(group, read(group))?,
        (None, Some(user)) => Who::User(user),
        (None, None) => Who::User(user_of(who)?),
    };
    Ok((who, given))
}

fn user_of(name: &str) -> Result<u32, String> {
    let found = User::from_name(name).map_err(|error| format!(": the user {name} cannot be looked up: {error}"))?;
    found.map(|it| it.uid.as_raw()).ok_or_else(|| format!(": there is no user {name}"))
}

/// One that is not in the list of groups is told by its number alone.
fn group_of(name: &str, number: Option<u32>) -> Result<Who, String> {
    let found = match number {
        Some(number) => Group::from_gid(Gid::from_raw(number)),
        None => Group::from_name(name),
    };
    let found = found.map_err(|error| format!(": the group {name} cannot be looked up: {error}"))?;
    match (found, number) {
        (Some(group), _) => {
            let members = group.mem.iter().filter_map(|it| user_of(it).ok()).collect();
            Ok(Who::Group { number: group.gid.as_raw(), members })
        }
        (None, Some(number)) => Ok(Who::Group { number, members: Vec::new() }),
        (None, None) => Err(format!(": there is no group {name}")),
    }
}

/// The group that a user has by the list of users: for who is not connected.
pub fn group_of_user(user: u32) -> Option<u32> {
    User::from_uid(Uid::from_raw(user)).ok().flatten().map(|it| it.gid.as_raw())
}

#[cfg(test)]
mod tests {
    use super::*;

    /// Of a table where one cgroup has a path.
    fn rights(allowed: &Allowed, user: u32, group: u32) -> Option<Rights> {
        allowed.rights_of(user, group, |path| (path == "/build/jobs").then_some(6))
    }

    #[test]
    fn a_cgroup_by_its_path() {
        let allowed = Allowed::read("7:below=/build/jobs,8:below=/build,9:below=/5/x", None).expect("words");
        let of = |user| rights(&allowed, user, 1);
        assert_eq!((of(7), of(8), of(9)), (Some(Rights::Below(6)), Some(Rights::BelowNone), Some(Rights::BelowNone)));
        let place = "--allow: \"8:below=/build\"";
        assert_eq!((allowed.paths().nth(1), allowed.controls().count()), (Some((place, "/build")), 0));
    }

    #[test]
    fn the_first_that_is_of_a_user_counts() {
        let allowed = Allowed::read("0,7:ro,%9:below=5,8,root", None).expect("words");
        let of = |user, group| rights(&allowed, user, group);
        assert_eq!(
            (of(0, 0), of(7, 9), of(8, 1), of(8, 9)),
            (Some(Rights::All), Some(Rights::Asks), Some(Rights::All), Some(Rights::Below(5)))
        );
        assert_eq!((of(10, 9), of(10, 10)), (Some(Rights::Below(5)), None));
        assert_eq!(
            (rights(&Allowed::default(), 10, 10), allowed.controls().collect::<Vec<_>>()),
            (Some(Rights::All), vec![("--allow: \"%9:below=5\"", 5)])
        );
        assert!(allowed.again().is_err() && !allowed.is_open());
    }

    #[test]
    fn a_file_has_a_word_a_line() {
        let path = std::env::temp_dir().join(format!("pidtabd-allowed-{}", std::process::id()));
        std::fs::write(&path, "# who may\n\n 7:ro # asks\n%9\n").expect("a file");
        let allowed = Allowed::read("0", Some(path.clone())).expect("lines");
        assert_eq!(
            (rights(&allowed, 7, 9), rights(&allowed, 8, 9), rights(&allowed, 8, 8)),
            (Some(Rights::Asks), Some(Rights::All), None)
        );
        std::fs::write(&path, "7\n\n8:rw\n").expect("a file");
        assert!(allowed.again().expect_err("a fault").contains(": line 3: \"8:rw\" is none of"));
        std::fs::write(&path, "").expect("a file");
        assert_eq!(rights(&allowed.again().expect("lines"), 7, 9), None);
        std::fs::remove_file(&path).expect("no file");
        assert!(allowed.again().is_err());
    }

    #[test]
    fn what_is_no_word() {
        let wrong = [
            "x:rw",
            "1:",
            "1:below=",
            "1:below=x",
            "1:below=/",
            "1:below=/a//b",
            "1:below=/a/",
            "1:below=/a/..",
            "1:below=build",
            "%",
            ":ro",
            "4294967296",
            "nobody-has-that-name",
            "%nobody-has-that-name",
        ];
        assert_eq!(wrong.iter().find(|it| read_word("", it).is_ok()), None);
    }
}
