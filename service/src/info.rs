//! What INFO says.
use crate::resp::{is_word, Words};
use crate::service::Service;
use std::fmt::Write;

/// The sections that are named, or all.
pub fn text(service: &Service, named: Words) -> String {
    let mut text = String::new();
    let sections = [
        ("Server", server(service)),
        ("Clients", clients(service)),
        ("Table", table(service)),
        ("Log", log(service)),
        ("Seats", seats(service)),
    ];
    let is_named = |name: &str| (0..named.len()).any(|it| is_word(named.at(it), name));
    let has_all = named.len() == 0 || ["ALL", "DEFAULT", "EVERYTHING"].into_iter().any(is_named);
    for (name, fields) in sections.into_iter().filter(|it| has_all || is_named(it.0)) {
        let _ = write!(text, "# {name}\r\n");
        for (field, value) in fields {
            let _ = write!(text, "{field}:{value}\r\n");
        }
    }
    text
}

type Fields = Vec<(String, String)>;

fn field(name: &str, value: impl ToString) -> (String, String) {
    (name.to_owned(), value.to_string())
}

fn server(service: &Service) -> Fields {
    let mut fields = vec![
        field("server", "pidtabd"),
        field("version", env!("CARGO_PKG_VERSION")),
        field("process_id", crate::run::own_pid()),
        field("uptime_in_seconds", service.uptime()),
        field("role", if service.leader.is_some() { "follower" } else { "leader" }),
    ];
    if let Some(leader) = &service.leader {
        fields.push(field("leader", leader.path.display()));
        fields.push(field("leader_link", if leader.is_up() { "up" } else { "down" }));
        fields.push(field("leader_fault", leader.fault.as_deref().unwrap_or("none")));
    }
    fields
}

fn clients(service: &Service) -> Fields {
    let figures = &service.figures;
    vec![
        field("connected_clients", figures.clients),
        field("maxclients", service.options.most_clients),
        field("accepted", figures.accepted),
        field("turned_away", figures.turned_away),
        field("closed_as_stalled", figures.stalled),
        field("closed_with_too_much_output", figures.heavy),
        field("sleeping", service.sleepers.count()),
        field("leases", service.engine.noted.leases.count()),
        field("followers", figures.followers),
        field("follower_lag_bytes", service.follower_lag()),
    ]
}

fn table(service: &Service) -> Fields {
    let (engine, figures) = (&service.engine, &service.figures);
    vec![
        field("identity", &engine.identity),
        field("position", if service.is_stuck() { engine.saved } else { engine.made }),
        field("waiting_calls", if service.is_stuck() { engine.made - engine.saved } else { 0 }),
        field("pid_max", engine.pid_max),
        field("tasks", engine.book.tasks()),
        field("controls", engine.book.controls()),
        field("calls", figures.calls),
        field("asked", engine.asked),
        field("refused", figures.refused),
        field("faults", figures.faults),
    ]
}

fn log(service: &Service) -> Fields {
    let engine = &service.engine;
    let Some(log) = &engine.log else { return vec![field("fsync", "none")] };
    vec![
        field("fsync", engine.keep.sync.word()),
        field("segment", log.base),
        field("segment_bytes", log.bytes),
        field("snapshot", engine.snapshot),
        field("compacting", u8::from(engine.is_compacting())),
        field("commits", log.commits),
        field("largest_commit_bytes", log.largest),
        field("write_retries", log.retries),
        field("is_stuck", u8::from(service.is_stuck())),
        field("stuck_by", service.stuck_by().unwrap_or("nothing")),
        field("replayed_at_start", engine.replayed),
        field("left_out_at_start", engine.left_out),
    ]
}

fn seats(service: &Service) -> Fields {
    let seats = service.figures.seated.iter().zip(service.engine.counts);
    let line = |(place, (clients, calls)): (usize, (&usize, u64))| {
        field(&format!("seat{place}"), format!("clients={clients},calls={calls}"))
    };
    seats.enumerate().map(line).collect()
}
