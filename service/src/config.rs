//! CONFIG GET: the settings, by the names that clients of Redis ask for, and else by those of the command line.
use crate::conn::Conn;
use crate::options::Options;
use crate::resp::{Answer, Words};
use crate::slowlog::MOST_KEPT;

/// Each setting whose name one of the words matches, once, with its value behind it.
pub fn tell(conn: &mut Conn, options: &Options, pid_max: u32, words: Words) {
    let mut settings = settings(options, pid_max);
    settings.retain(|it| (0..words.len()).any(|place| matches(&words.at(place).to_ascii_lowercase(), it.0.as_bytes())));
    conn.out.array(2 * settings.len());
    for (name, value) in settings {
        conn.out.bulk(name.as_bytes());
        conn.out.bulk(value.as_bytes());
    }
}

fn settings(options: &Options, pid_max: u32) -> Vec<(&'static str, String)> {
    let keep = &options.keep;
    let path = |it: &Option<std::path::PathBuf>| it.as_ref().map_or(String::new(), |it| it.display().to_string());
    let yes = |it: bool| if it { "yes" } else { "no" }.to_owned();
    vec![
        ("allow-file", path(&options.allowed.file().map(Into::into))),
        ("appendfsync", keep.sync.word().to_owned()),
        ("appendonly", yes(keep.path.is_some())),
        ("archive", yes(keep.archive)),
        ("databases", 1.to_string()),
        ("dir", path(&keep.path)),
        ("follow", path(&options.follow)),
        ("max-controls", keep.most_controls.to_string()),
        ("max-output", options.most_output.to_string()),
        ("max-user-clients", options.most_user_clients.unwrap_or(options.most_clients.div_ceil(2)).to_string()),
        ("maxclients", options.most_clients.to_string()),
        ("pid-max", pid_max.to_string()),
        ("port", 0.to_string()),
        ("reap", yes(options.reaps)),
        ("save", String::new()),
        ("segment", keep.segment.to_string()),
        ("slowlog-log-slower-than", options.slower_than.to_string()),
        ("slowlog-max-len", MOST_KEPT.to_string()),
        ("stall", options.stall.to_string()),
        ("timeout", 0.to_string()),
        ("unixsocket", path(&options.socket)),
        ("unixsocketperm", format!("{:o}", options.mode)),
    ]
}

/// Whether the name is as the pattern has it, in which * is any text, and ? any byte. Where a * was tried too short, it takes one byte more.
fn matches(pattern: &[u8], name: &[u8]) -> bool {
    let (mut at, mut place, mut star) = (0, 0, None);
    while place < name.len() {
        match (pattern.get(at), star) {
            (Some(b'*'), _) => {
                star = Some((at, place));
                at += 1;
            }
            (Some(it), _) if *it == b'?' || *it == name[place] => (at, place) = (at + 1, place + 1),
            (_, Some((before, from))) => {
                star = Some((before, from + 1));
                (at, place) = (before + 1, from + 1);
            }
            _ => return false,
        }
    }
    pattern[at..].iter().all(|it| *it == b'*')
}

#[cfg(test)]
mod tests {
    use super::*;

    #[test]
    fn patterns() {
        let of = |pattern: &[u8]| matches(pattern, b"slowlog-max-len");
        assert!(of(b"*") && of(b"slowlog-max-len") && of(b"slow*") && of(b"*len") && of(b"s*-*-l?n") && of(b"**max**"));
        assert!(!of(b"") && !of(b"slow") && !of(b"*max") && !of(b"?") && !of(b"slowlog-max-len?") && !of(b"*x*x*"));
    }
}
