//! The server that a served connection is measured beside: std's threads, which send the same
//! prepared bytes for every line.
//!
//!     prepared REPLY PORT WORKERS SESSIONS
//!
//! It listens on 127.0.0.1, at PORT to PORT + WORKERS, with a thread for each, which serves
//! SESSIONS sessions one after another: it reads lines, and for each sends the bytes of the file
//! REPLY, until the line `quit` or the end. It tells on stderr where it listens. A fault of a
//! session ends that session alone.

use std::error::Error;
use std::io::{self, BufRead, BufReader, Write};
use std::net::{Ipv4Addr, TcpListener, TcpStream};
use std::{env, fs, thread};

fn serve(mut stream: TcpStream, reply: &[u8]) -> io::Result<()> {
    stream.set_nodelay(true)?;
    let mut lines = BufReader::new(stream.try_clone()?);
    let mut line = Vec::new();
    while lines.read_until(b'\n', &mut line)? > 0 && line != b"quit\n" {
        stream.write_all(reply)?;
        line.clear();
    }
    Ok(())
}

fn serve_all(listener: TcpListener, sessions: u32, reply: &[u8]) {
    for _ in 0..sessions {
        if let Err(fault) = listener.accept().and_then(|(stream, _)| serve(stream, reply)) {
            eprintln!("prepared: {fault}");
        }
    }
}

fn main() -> Result<(), Box<dyn Error>> {
    let words: Vec<String> = env::args().skip(1).collect();
    let [reply, port, workers, sessions] = words.as_slice() else {
        return Err("usage: prepared REPLY PORT WORKERS SESSIONS".into());
    };
    let reply = fs::read(reply)?;
    let (first, workers) = (port.parse::<u16>()?, workers.parse::<u16>()?);
    let sessions = sessions.parse()?;
    let bind = |port| TcpListener::bind((Ipv4Addr::LOCALHOST, port));
    let listeners = (first..=first + workers).map(bind).collect::<io::Result<Vec<_>>>()?;
    thread::scope(|scope| {
        for (listener, port) in listeners.into_iter().zip(first..) {
            eprintln!("listening on 127.0.0.1:{port}");
            let reply = &reply;
            scope.spawn(move || serve_all(listener, sessions, reply));
        }
    });
    Ok(())
}
