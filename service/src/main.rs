//! pidtabd: one pidtab table for all processes of a host, by a Unix socket and RESP2, the protocol of Redis.
#![forbid(unsafe_code)]

mod accounts;
mod allowed;
mod asks;
mod book;
mod check;
mod checksum;
mod clients;
mod commands;
mod config;
mod conn;
mod connections;
mod directory;
mod engine;
mod entry;
mod events;
mod facts;
mod former;
mod haste;
mod info;
mod leader;
mod leases;
mod log;
mod metrics;
mod names;
mod noted;
mod options;
mod peer;
mod recall;
mod recover;
mod replica;
mod resp;
mod rights;
mod run;
mod say;
mod service;
mod sleepers;
mod slowlog;
mod snapshot;
mod syncer;

use listenfd::ListenFd;
use mio::net::{UnixListener, UnixStream};
use nix::sys::resource::{getrlimit, setrlimit, Resource};
use nix::sys::stat::{umask, Mode};
use options::{Options, Wanted, USAGE};
use sd_notify::NotifyState;
use service::{Service, Signals};
use signal_hook::consts::{SIGHUP, SIGINT, SIGTERM};
use std::fs::{File, TryLockError};
use std::io;
use std::os::unix::net;
use std::path::Path;
use std::process::ExitCode;
use std::thread;
use std::time::Duration;

/// More than these listening sockets are not taken.
const MOST_LISTENERS: usize = 8;

/// So often, and in such steps, it is tried to lock the folder of the socket.
const MOST_TRIES: u32 = 250;
const BETWEEN_TRIES: Duration = Duration::from_millis(20);

fn main() -> ExitCode {
    let wanted = options::read(std::env::args_os().skip(1));
    match wanted {
        Ok(Wanted::Serve(options)) => serve(*options),
        Ok(Wanted::Help) => show(USAGE),
        Ok(Wanted::Version) => show(concat!("pidtabd ", env!("CARGO_PKG_VERSION"), "\n")),
        Ok(Wanted::Metrics(socket)) => tell(metrics::ask(&socket)),
        Ok(Wanted::Check(directory)) => tell(check::check(&directory)),
        Ok(Wanted::Copy { socket, directory }) => tell(check::copy(&socket, &directory)),
        Ok(Wanted::Commands) => {
            let lines: Vec<_> = commands::COMMANDS.iter().map(say::help_line).collect();
            show(&(lines.join("\n") + "\n"))
        }
        Err(fault) => {
            eprint!("pidtabd: {fault}\n{USAGE}");
            ExitCode::from(2)
        }
    }
}

fn tell(told: Result<String, String>) -> ExitCode {
    match told {
        Ok(text) => show(&text),
        Err(fault) => fail(&fault, 1),
    }
}

fn show(text: &str) -> ExitCode {
    use std::io::Write;
    match io::stdout().write_all(text.as_bytes()) {
        Ok(()) => ExitCode::SUCCESS,
        Err(_) => ExitCode::FAILURE,
    }
}

/// 0: ended as asked. 1: it cannot listen. 2: users cannot be told apart. 3: the directory is not taken. 4: what was recorded cannot be saved.
fn serve(options: Options) -> ExitCode {
    if !options.allowed.is_open() && !rights::sees_all_users() {
        return fail(
            "--allow: this user namespace does not have all users (/proc/self/uid_map), so they cannot be told apart",
            2,
        );
    }
    raise_files(options.most_clients as u64 + 64);
    let listeners = match listen(&options) {
        Ok(listeners) => listeners,
        Err(fault) => return fail(&fault, 1),
    };
    let socket = options.socket.clone();
    let mut service = match Service::begin(options, listeners, signals) {
        Ok(service) => service,
        Err(fault) => {
            socket.iter().for_each(|it| drop(std::fs::remove_file(it)));
            return fail(&fault, 3);
        }
    };
    let _ = sd_notify::notify(false, &[NotifyState::Ready]);
    let done = service.run();
    let _ = sd_notify::notify(false, &[NotifyState::Stopping]);
    socket.iter().for_each(|it| drop(std::fs::remove_file(it)));
    match done {
        Ok(()) => ExitCode::SUCCESS,
        Err(fault) => fail(&fault, 4),
    }
}

fn fail(fault: &str, status: u8) -> ExitCode {
    eprintln!("pidtabd: {fault}");
    ExitCode::from(status)
}

/// A descriptor for each client, and some.
fn raise_files(wanted: u64) {
    let Ok((soft, hard)) = getrlimit(Resource::RLIMIT_NOFILE) else { return };
    if soft < wanted {
        let _ = setrlimit(Resource::RLIMIT_NOFILE, wanted.min(hard), hard);
    }
}

/// SIGTERM and SIGINT, and SIGHUP, as bytes of streams.
fn signals() -> Result<Signals, String> {
    Ok(Signals { end: stream_of(&[SIGTERM, SIGINT])?, reload: stream_of(&[SIGHUP])? })
}

fn stream_of(signals: &[i32]) -> Result<UnixStream, String> {
    let (end, begin) = net::UnixStream::pair().map_err(|error| error.to_string())?;
    for signal in signals.iter().copied() {
        let again = begin.try_clone().map_err(|error| error.to_string())?;
        signal_hook::low_level::pipe::register(signal, again).map_err(|error| error.to_string())?;
    }
    end.set_nonblocking(true).map_err(|error| error.to_string())?;
    Ok(UnixStream::from_std(end))
}

/// The sockets that systemd passes, and the one that is named.
fn listen(options: &Options) -> Result<Vec<UnixListener>, String> {
    let mut listeners = Vec::new();
    let mut passed = ListenFd::from_env();
    for place in 0..passed.len().min(MOST_LISTENERS) {
        let fault = |error: io::Error| format!("what systemd has passed is no listening Unix socket: {error}");
        let socket = passed.take_unix_listener(place).map_err(fault)?;
        listeners.extend(socket);
    }
    if let Some(path) = &options.socket {
        listeners.push(bind(path, options.mode).map_err(|error| format!("{}: {error}", path.display()))?);
    }
    if listeners.is_empty() {
        return Err(format!("no socket: name one by --socket\n{USAGE}"));
    }
    listeners.into_iter().map(begin_listening).collect()
}

fn begin_listening(listener: net::UnixListener) -> Result<UnixListener, String> {
    listener.set_nonblocking(true).map_err(|error| error.to_string())?;
    Ok(UnixListener::from_std(listener))
}

/// A path that is there already goes away only if nobody listens there, which one process at a time looks at. The mode holds from the first moment on.
fn bind(path: &Path, mode: u32) -> io::Result<net::UnixListener> {
    let _turn = lock_folder(path)?;
    match net::UnixStream::connect(path) {
        Err(error) if error.kind() == io::ErrorKind::ConnectionRefused => std::fs::remove_file(path)?,
        Err(error) if error.kind() == io::ErrorKind::NotFound => {}
        Err(error) => return Err(error),
        Ok(_) => return Err(io::ErrorKind::AddrInUse.into()),
    }
    let before = umask(Mode::from_bits_truncate(0o777 & !mode));
    let bound = net::UnixListener::bind(path);
    umask(before);
    bound
}

/// The folder of the path, locked until it is dropped. Who holds the lock for long is no process of this program.
fn lock_folder(path: &Path) -> io::Result<File> {
    let folder = path.parent().filter(|it| !it.as_os_str().is_empty()).unwrap_or(Path::new("."));
    let folder = File::open(folder)?;
    for _ in 0..MOST_TRIES {
        match folder.try_lock() {
            Ok(()) => return Ok(folder),
            Err(TryLockError::WouldBlock) => thread::sleep(BETWEEN_TRIES),
            Err(TryLockError::Error(error)) => return Err(error),
        }
    }
    Err(io::Error::other("another process has locked the folder of the socket"))
}
