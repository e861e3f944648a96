//! A service that this program asks, as `--metrics` and `--copy` do: requests, and answers that are bulk strings.
use std::io::{self, BufRead, BufReader, Read, Write};
use std::os::unix::net::UnixStream;
use std::path::{Path, PathBuf};
use std::time::Duration;

/// No first line of an answer is longer, in bytes.
const LONGEST_LINE: u64 = 1024;

pub struct Peer {
    path: PathBuf,
    reader: BufReader<UnixStream>,
}

impl Peer {
    /// Asks the service at the socket. So long each part of an answer is waited for.
    pub fn ask(path: &Path, request: &str, patience: Duration) -> Result<Peer, String> {
        let socket = connect(path, request, patience).map_err(|error| format!("{}: {error}", path.display()))?;
        Ok(Peer { path: path.to_owned(), reader: BufReader::new(socket) })
    }

    /// The next answer. What is wrong is a sentence.
    pub fn bulk(&mut self) -> Result<Vec<u8>, String> {
        let fault = |error: io::Error| format!("{}: {error}", self.path.display());
        let mut line = String::new();
        (&mut self.reader).take(LONGEST_LINE).read_line(&mut line).map_err(fault)?;
        let line = line.trim_end();
        let Some(size) = line.strip_prefix('$').and_then(|it| it.parse::<u64>().ok()) else {
            let said = if line.is_empty() { "nothing" } else { line };
            return Err(format!("{}: no text, but {said}", self.path.display()));
        };
        let mut bytes = Vec::new();
        (&mut self.reader).take(size + 2).read_to_end(&mut bytes).map_err(fault)?;
        if bytes.len() as u64 != size + 2 {
            return Err(format!("{}: the text ends within", self.path.display()));
        }
        bytes.truncate(size as usize);
        Ok(bytes)
    }
}

fn connect(path: &Path, request: &str, patience: Duration) -> io::Result<UnixStream> {
    let mut socket = UnixStream::connect(path)?;
    socket.set_read_timeout(Some(patience))?;
    socket.write_all(format!("{request}\r\n").as_bytes())?;
    Ok(socket)
}
