//! Events for those who have subscribed: SUBSCRIBE and UNSUBSCRIBE of RESP2.
use crate::book::{Event, What};
use crate::resp::{number, Answer};
use pidtab::Ended;

/// No client has more channels.
pub const MOST_CHANNELS: usize = 64;

#[derive(Clone, Copy, Debug, PartialEq)]
enum Scope {
    All,
    Space(u64),
    Control(u64),
}

/// `exit`, `fork` or `fall`, alone or of a namespace or of a cgroup, with all below it: `exit:space:3`, `fork:control:5`.
#[derive(Clone, Debug, PartialEq)]
pub struct Channel {
    pub name: Vec<u8>,
    kind: &'static str,
    scope: Scope,
    /// Events of calls before that ordinal are not for it.
    since: u64,
}

impl Channel {
    pub fn read(name: &[u8]) -> Option<Channel> {
        let mut words = name.split(|it| *it == b':');
        let first = words.next()?;
        let kind = ["exit", "fork", "fall"].into_iter().find(|it| it.as_bytes() == first)?;
        let scope = match (words.next(), words.next().map(|it| number(it, u64::MAX)), words.next()) {
            (None, None, None) => Scope::All,
            (Some(b"space"), Some(Some(id)), None) => Scope::Space(id),
            (Some(b"control"), Some(Some(id)), None) => Scope::Control(id),
            _ => return None,
        };
        Some(Channel { name: name.to_vec(), kind, scope, since: 0 })
    }

    /// The same with the events of the calls from that ordinal on.
    pub fn since(self, since: u64) -> Channel {
        Channel { since, ..self }
    }

    /// Whether the event is one of the channel's.
    pub fn has(&self, event: &Event) -> bool {
        let is_within = match self.scope {
            Scope::All => true,
            Scope::Space(id) => event.spaces.contains(&id),
            Scope::Control(id) => event.controls.contains(&id),
        };
        is_within && self.kind == kind_of(event.what) && event.ordinal >= self.since
    }
}

fn kind_of(what: What) -> &'static str {
    match what {
        What::Forked { .. } => "fork",
        What::Ended { .. } => "exit",
        What::Fell => "fall",
    }
}

/// What a message says: root numbers, the status, the ids of the namespace and the cgroup, and the ordinal of the call that has done it.
pub fn payload(event: &Event) -> String {
    let (space, control, at) = (event.spaces[0], event.controls[0], event.ordinal);
    match event.what {
        What::Forked { parent, child } => format!("{parent} {child} space {space} control {control} at {at}"),
        What::Ended { task, ended: Ended::Exited(status) } => {
            format!("{task} {status} space {space} control {control} at {at}")
        }
        What::Ended { task, ended: Ended::Killed } => {
            format!("{task} killed space {space} control {control} at {at}")
        }
        What::Fell => format!("{space} at {at}"),
    }
}

/// The messages of an event to who has these channels.
pub fn tell(out: &mut Vec<u8>, channels: &[Channel], event: &Event, payload: &str) {
    for channel in channels.iter().filter(|it| it.has(event)) {
        say(out, "message", Some(&channel.name));
        out.bulk(payload.as_bytes());
    }
}

/// That the client has the channels from that place on.
pub fn say_subscribed(out: &mut Vec<u8>, channels: &[Channel], had: usize) {
    for (place, channel) in channels.iter().enumerate().skip(had) {
        say(out, "subscribe", Some(&channel.name));
        out.number(place as u64 + 1);
    }
}

/// `*3`, the kind, the channel, and what is behind.
pub fn say(out: &mut Vec<u8>, kind: &str, channel: Option<&[u8]>) {
    out.array(3);
    out.bulk(kind.as_bytes());
    match channel {
        Some(name) => out.bulk(name),
        None => out.line("$-1"),
    }
}

#[cfg(test)]
mod tests {
    use super::*;

    #[test]
    fn channels_by_their_names() {
        let (spaces, controls) = (vec![3, 1, 0], vec![5, 0]);
        let event = Event { ordinal: 7, what: What::Fell, spaces, controls };
        let of = |name: &[u8]| Channel::read(name).expect("a channel").has(&event);
        assert!(of(b"fall") && of(b"fall:space:1") && of(b"fall:control:5") && of(b"fall:space:0"));
        let since = |ordinal| Channel::read(b"fall").expect("a channel").since(ordinal).has(&event);
        assert!(since(7) && !since(8));
        assert!(!of(b"exit") && !of(b"fall:space:2") && !of(b"fall:control:3"));
        let wrong: [&[u8]; 8] = [
            b"",
            b"falls",
            b"fall:",
            b"fall:space",
            b"fall:space:x",
            b"fall:space:1:2",
            b"fall:tree:1",
            b"fall:space:",
        ];
        assert!(wrong.iter().all(|it| Channel::read(it).is_none()));
    }
}
