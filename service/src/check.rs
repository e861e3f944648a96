//! --check: what a directory has, read as a start reads it; and --copy: the table of a service in a directory of its own. Neither changes what it reads.
use crate::directory::{fault_at, is_identity, Directory, Fault};
use crate::former::{self, Known};
use crate::noted::Noted;
use crate::peer::Peer;
use crate::recover::Recovery;
use crate::snapshot;
use pidtab::Table;
use std::collections::HashMap;
use std::fmt::Write as _;
use std::path::Path;
use std::time::Duration;

/// So long a service may take for each part of its table: it may have to read its logs.
const PATIENCE: Duration = Duration::from_secs(600);

/// What is there, a line a figure; what a start would refuse is a fault.
pub fn check(path: &Path) -> Result<String, Fault> {
    let directory = Directory::look(path)?;
    let identity = directory.identity()?;
    let Some(mut recovery) = Recovery::begin(directory.again()?)? else {
        return Ok("empty: a start begins a new table\n".to_owned());
    };
    recovery.born = directory.former_leases().exists().then(HashMap::new);
    let left_out = recovery.finish()?.map_or(0, |it| it.left_out);
    take_former(&directory, &mut recovery)?;
    let Recovery { table, noted, place, snapshot, replayed, pid_max, .. } = &mut recovery;
    let leases = &mut noted.leases;
    leases.keep_those_that(|task| table.stat(1, task).is_ok());
    let listing = table.listing().map_err(fault_at(path))?;
    let figures = [
        ("calls", place.calls),
        ("entries", place.entries),
        ("snapshot", snapshot.calls),
        ("replayed", *replayed),
        ("left_out_bytes", left_out),
        ("pid_max", u64::from(*pid_max)),
        ("tasks", listing.tasks.len() as u64),
        ("controls", listing.controls.len() as u64 - 1),
        ("leases", leases.count() as u64),
        ("leased_tasks", leases.tasks() as u64),
        ("named_controls", noted.names.ids().count() as u64),
    ];
    let mut text = format!("identity:{}\n", identity.as_deref().unwrap_or("none"));
    for (name, value) in figures {
        let _ = writeln!(text, "{name}:{value}");
    }
    Ok(text)
}

/// The leases of a former release, which a start takes over.
fn take_former(directory: &Directory, recovery: &mut Recovery) -> Result<(), Fault> {
    let Some(born) = &recovery.born else { return Ok(()) };
    let (known, table) = (Known { snapshot: recovery.snapshot.calls, born }, &recovery.table);
    let facts = former::read_file(directory, &known, |task| table.stat(1, task).is_ok())?.unwrap_or_default();
    facts.iter().for_each(|it| recovery.noted.apply(it));
    Ok(())
}

/// Writes the table of the service at the socket, with its leases, into an empty directory, and says how far it goes. The service goes on meanwhile.
pub fn copy(socket: &Path, path: &Path) -> Result<String, Fault> {
    let directory = Directory::take(path)?;
    if !directory.is_new()? {
        return Err(fault_at(path)("has a table: name an empty directory"));
    }
    let mut peer = Peer::ask(socket, "PIDTAB.FOLLOW IDENTITY", PATIENCE)?;
    let identity = String::from_utf8(peer.bulk()?).ok().filter(|it| is_identity(it));
    let identity = identity.ok_or_else(|| fault_at(socket)("the service has no identity"))?;
    let text = peer.bulk()?;
    let read = snapshot::read(&text).map_err(fault_at(socket))?;
    Table::from_dump(read.table).map_err(fault_at(socket))?;
    let (place, leases) = (read.place, Noted::of(&read.facts).leases);
    let to = directory.snapshot(place.entries);
    directory.write(&to, &[&text]).map_err(fault_at(&to))?;
    directory.set_identity(&identity)?;
    Ok(format!("{}: {} calls, {} leases\n", to.display(), place.calls, leases.count()))
}
