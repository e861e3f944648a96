//! METRICS: figures in the text format of Prometheus, and `--metrics`, which asks a service for them.
use crate::peer::Peer;
use crate::service::Service;
use std::fmt::Write as _;
use std::path::Path;
use std::time::Duration;

/// So long an answer is waited for.
const PATIENCE: Duration = Duration::from_secs(10);

#[derive(Clone, Copy)]
enum Kind {
    /// It grows from the start on.
    Counter,
    Gauge,
}

use Kind::{Counter, Gauge};

type Figure = (&'static str, Kind, u64, &'static str);

pub fn text(service: &Service) -> String {
    let mut text = String::new();
    let (identity, version) = (&service.engine.identity, env!("CARGO_PKG_VERSION"));
    let role = if service.leader.is_some() { "follower" } else { "leader" };
    head(&mut text, "pidtabd_info", Gauge, "The table and its service: 1.");
    let _ = writeln!(text, "pidtabd_info{{identity=\"{identity}\",role=\"{role}\",version=\"{version}\"}} 1");
    let figures = of_clients(service).into_iter().chain(of_table(service)).chain(of_log(service));
    for (name, kind, value, about) in figures {
        head(&mut text, name, kind, about);
        let _ = writeln!(text, "{name} {value}");
    }
    text
}

fn head(text: &mut String, name: &str, kind: Kind, about: &str) {
    let kind = if matches!(kind, Counter) { "counter" } else { "gauge" };
    let _ = write!(text, "# HELP {name} {about}\n# TYPE {name} {kind}\n");
}

fn of_clients(service: &Service) -> Vec<Figure> {
    let figures = &service.figures;
    let is_linked = service.leader.as_ref().is_some_and(|it| it.is_up());
    vec![
        ("pidtabd_uptime_seconds", Gauge, service.uptime(), "Since the start."),
        ("pidtabd_clients", Gauge, figures.clients as u64, "Connections."),
        ("pidtabd_clients_max", Gauge, service.options.most_clients as u64, "How many there may be."),
        ("pidtabd_clients_sleeping", Gauge, service.sleepers.count() as u64, "Those that wait for a child."),
        ("pidtabd_followers", Gauge, figures.followers as u64, "Those that follow."),
        ("pidtabd_follower_lag_bytes", Gauge, service.follower_lag() as u64, "Not sent to the one farthest behind."),
        ("pidtabd_leader_link", Gauge, u64::from(is_linked), "Whether a follower is linked to its leader."),
        ("pidtabd_clients_accepted_total", Counter, figures.accepted, "Connections taken."),
        ("pidtabd_clients_turned_away_total", Counter, figures.turned_away, "Connections not taken."),
        ("pidtabd_clients_stalled_total", Counter, figures.stalled, "Closed, as they took no answer for long."),
        ("pidtabd_clients_heavy_total", Counter, figures.heavy, "Closed, as their users had too much output."),
        ("pidtabd_faults_total", Counter, figures.faults, "Requests that were none."),
        ("pidtabd_slow_requests_total", Counter, service.slowlog.count, "Requests in the slow log."),
    ]
}

fn of_table(service: &Service) -> Vec<Figure> {
    let (engine, figures) = (&service.engine, &service.figures);
    let position = if service.is_stuck() { engine.saved } else { engine.made };
    vec![
        ("pidtabd_position", Gauge, position, "Calls that are recorded, in all."),
        ("pidtabd_waiting_calls", Gauge, engine.made - position, "Calls that the disk has not taken."),
        ("pidtabd_pid_max", Gauge, u64::from(engine.pid_max), "The greatest number of a task."),
        ("pidtabd_tasks", Gauge, engine.book.tasks() as u64, "Tasks, live or not waited for yet."),
        ("pidtabd_controls", Gauge, engine.book.controls() as u64, "Cgroups beside the root's."),
        ("pidtabd_leases", Gauge, service.engine.noted.leases.count() as u64, "Leases."),
        ("pidtabd_calls_total", Counter, figures.calls, "Calls that were made."),
        ("pidtabd_refusals_total", Counter, figures.refused, "Of these those that the table refused."),
        ("pidtabd_queries_total", Counter, engine.asked, "Queries."),
    ]
}

fn of_log(service: &Service) -> Vec<Figure> {
    let engine = &service.engine;
    let stuck = ("pidtabd_stuck", Gauge, u64::from(service.is_stuck()), "Whether answers wait for the disk.");
    let Some(log) = &engine.log else { return vec![stuck] };
    vec![
        stuck,
        ("pidtabd_commits_total", Counter, log.commits, "Batches that were written."),
        ("pidtabd_write_retries_total", Counter, log.retries, "Writes that were tried again."),
        ("pidtabd_log_bytes", Gauge, log.bytes, "Of the newest file of the log."),
        ("pidtabd_snapshot_position", Gauge, engine.snapshot, "Calls before the newest snapshot."),
    ]
}

/// Asks the service at the socket. What is wrong is a sentence.
pub fn ask(path: &Path) -> Result<String, String> {
    let text = Peer::ask(path, "METRICS", PATIENCE)?.bulk()?;
    String::from_utf8(text).map_err(|_| format!("{}: the figures are no text", path.display()))
}
