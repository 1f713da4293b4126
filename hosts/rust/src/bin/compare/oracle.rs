//! The Rust as a server over pipes.
//!
//! Numbers are big-endian. Request: u32 length, sheet, u32 start, u8 include, u8 default list (1) or own (0), u32 length, run. Reply: u8
//! status, u32 length, bytes; status 0 is the text, 1 a panic with its message, 2 a refusal with its number in decimal.
use std::env;
use std::fmt;
use std::io::{self, BufReader, BufWriter, Read, Write};
use std::path::{Path, PathBuf};
use std::process::{Child, ChildStdin, ChildStdout, Command, Stdio};
use std::sync::Arc;

#[derive(Clone, Debug)]
pub struct Request {
    pub sheet: Arc<[u8]>,
    pub start: u32,
    pub include: bool,
    /// None is the default list.
    pub run: Option<Arc<[u8]>>,
    /// Which sheet it is, and what its memories are made from.
    pub number: u64,
    pub salt: u64,
}

pub enum Reply {
    Text(Vec<u8>),
    Panic(String),
    Refused(u8),
}

impl fmt::Display for Reply {
    fn fmt(&self, f: &mut fmt::Formatter<'_>) -> fmt::Result {
        match self {
            Reply::Text(text) => write!(f, "\"{}\"", text.escape_ascii()),
            Reply::Panic(message) => write!(f, "panics: {message}"),
            Reply::Refused(number) => write!(f, "no {number}"),
        }
    }
}

pub struct Oracle {
    pub child: Child,
    pub to: Sender,
    pub from: Receiver,
}

pub struct Sender(BufWriter<ChildStdin>);
pub struct Receiver(BufReader<ChildStdout>);

/// The program: `path` itself or, where it is the folder with the server's sources, what its build.sh writes.
pub fn program(path: &Path) -> PathBuf {
    if !path.is_dir() {
        return path.to_path_buf();
    }
    if let Some(binary) = env::var_os("ORACLE") {
        return binary.into();
    }
    let build = match env::var_os("ORACLE_BUILD") {
        Some(build) => PathBuf::from(build),
        None => Path::new(&env::var_os("HOME").unwrap_or_default()).join(".cache/oracle-build"),
    };
    build.join("target/release/oracle")
}

impl Oracle {
    pub fn start(program: &Path) -> io::Result<Oracle> {
        let mut child = Command::new(program).stdin(Stdio::piped()).stdout(Stdio::piped()).spawn()?;
        let to = Sender(BufWriter::with_capacity(1 << 16, child.stdin.take().unwrap()));
        let from = Receiver(BufReader::with_capacity(1 << 16, child.stdout.take().unwrap()));
        Ok(Oracle { child, to, from })
    }

    pub fn ask(&mut self, request: &Request) -> io::Result<Reply> {
        self.to.send(request)?;
        self.to.flush()?;
        self.from.receive()
    }
}

impl Sender {
    pub fn send(&mut self, request: &Request) -> io::Result<()> {
        let run: &[u8] = request.run.as_deref().unwrap_or(&[]);
        self.0.write_all(&(request.sheet.len() as u32).to_be_bytes())?;
        self.0.write_all(&request.sheet)?;
        self.0.write_all(&request.start.to_be_bytes())?;
        self.0.write_all(&[u8::from(request.include), u8::from(request.run.is_none())])?;
        self.0.write_all(&(run.len() as u32).to_be_bytes())?;
        self.0.write_all(run)
    }

    pub fn flush(&mut self) -> io::Result<()> {
        self.0.flush()
    }
}

impl Receiver {
    pub fn receive(&mut self) -> io::Result<Reply> {
        let mut head = [0; 5];
        self.0.read_exact(&mut head)?;
        let mut body = vec![0; u32::from_be_bytes([head[1], head[2], head[3], head[4]]) as usize];
        self.0.read_exact(&mut body)?;
        let wrong = |what: &str| io::Error::new(io::ErrorKind::InvalidData, what.to_string());
        match head[0] {
            0 => Ok(Reply::Text(body)),
            1 => Ok(Reply::Panic(String::from_utf8_lossy(&body).into_owned())),
            2 => {
                let number = std::str::from_utf8(&body).ok().and_then(|n| n.parse().ok());
                number.map(Reply::Refused).ok_or_else(|| wrong("a refusal without a number"))
            }
            _ => Err(wrong("an unknown status")),
        }
    }
}
