//! Asks a server of tables on 127.0.0.1 and prints how many replies came in how many seconds.
//!
//!     client ask PORT CONNECTIONS AT_ONCE LINES SECONDS REPLIES QUERY
//!     client publish PORT CONNECTIONS SECONDS REPLIES QUERY EDITS ANSWERS
//!
//! Connection I, from 1 to CONNECTIONS, is an analyst's session at PORT + I; or at PORT + 1, where
//! CONNECTIONS is a number behind `door:`. It writes the line
//! QUERY so many times at once and then reads as many replies, again and again, until it has had
//! LINES of them or SECONDS have passed. The file REPLIES has the table of each release, from 0, or
//! a line that stands for a refusal; each reply must be that of its release byte by byte, and the
//! release of a session must never fall. With `publish` a session at PORT, the custodian's, writes
//! the lines of EDITS, batch by batch in one write each, and must get the lines of ANSWERS, whose
//! `published N` count up by one; the others ask a line at a time until it is done.
//!
//! Each session has asked once before the clock starts, and ends by the end of its input, after
//! which nothing more may come. What is printed is `replies N seconds S`, and for `publish` then
//! `published N releases R` with the fewest different releases that a session saw after its first
//! reply. A fault ends it with a message and status 1. No read or write waits longer than PATIENCE.

use std::error::Error;
use std::io::{Read, Write};
use std::net::{Ipv4Addr, Shutdown, TcpStream};
use std::sync::Barrier;
use std::sync::atomic::{AtomicBool, Ordering};
use std::time::{Duration, Instant};
use std::{env, fs, thread};

type Outcome<T> = Result<T, Box<dyn Error + Send + Sync>>;

const PATIENCE: Duration = Duration::from_secs(30);
const BUFFER: usize = 1 << 18;
/// A session has less than a million lines.
const MOST_LINES: u64 = 990_000;

/// The reply of each release.
struct Replies(Vec<Vec<u8>>);

impl Replies {
    /// Tables, each up to its line `.`; or lines.
    fn read(path: &str) -> Outcome<Replies> {
        let bytes = fs::read(path)?;
        let is_tables = bytes.starts_with(b"release ");
        let (mut replies, mut reply) = (Vec::new(), Vec::new());
        for line in bytes.split_inclusive(|byte| *byte == b'\n') {
            reply.extend_from_slice(line);
            if !is_tables || line == b".\n" {
                replies.push(std::mem::take(&mut reply));
            }
        }
        match reply.is_empty() && !replies.is_empty() {
            true => Ok(Replies(replies)),
            false => Err(format!("{path} has no whole replies").into()),
        }
    }
}

fn number(digits: &[u8]) -> Outcome<usize> {
    Ok(std::str::from_utf8(digits)?.parse()?)
}

/// A connection, and the bytes that came and weren't taken yet: those from `from` to `to`.
struct Session {
    stream: TcpStream,
    bytes: Vec<u8>,
    from: usize,
    to: usize,
}

impl Session {
    fn open(port: u16) -> Outcome<Session> {
        let stream = TcpStream::connect((Ipv4Addr::LOCALHOST, port))?;
        stream.set_nodelay(true)?;
        stream.set_read_timeout(Some(PATIENCE))?;
        stream.set_write_timeout(Some(PATIENCE))?;
        Ok(Session { stream, bytes: vec![0; BUFFER], from: 0, to: 0 })
    }

    /// Waits for more bytes.
    fn fill(&mut self) -> Outcome<()> {
        if self.from > 0 {
            self.bytes.copy_within(self.from..self.to, 0);
            (self.from, self.to) = (0, self.to - self.from);
        }
        if self.to == self.bytes.len() {
            return Err("a reply is too long".into());
        }
        match self.stream.read(&mut self.bytes[self.to..])? {
            0 => Err("a session was ended by the server".into()),
            n => Ok(self.to += n),
        }
    }

    /// The next line without its end, which isn't taken.
    fn line(&mut self) -> Outcome<&[u8]> {
        let mut seen = 0;
        loop {
            let left = &self.bytes[self.from..self.to];
            if let Some(end) = left[seen..].iter().position(|byte| *byte == b'\n') {
                return Ok(&self.bytes[self.from..][..seen + end]);
            }
            seen = left.len();
            self.fill()?;
        }
    }

    /// Takes this text, which must come next; what comes is compared as it comes.
    fn take(&mut self, text: &[u8]) -> Outcome<()> {
        loop {
            let left = &self.bytes[self.from..self.to];
            let len = left.len().min(text.len());
            if left[..len] != text[..len] {
                let line = String::from_utf8_lossy(self.line()?).into_owned();
                return Err(format!("a reply that begins with `{line}` is a wrong one").into());
            }
            if len == text.len() {
                self.from += len;
                return Ok(());
            }
            self.fill()?;
        }
    }

    /// Takes the next reply and returns the number of its release; that of a refusal is 0.
    fn take_reply(&mut self, replies: &Replies) -> Outcome<usize> {
        let release = match self.line()?.strip_prefix(b"release ") {
            Some(digits) => number(digits)?,
            None => 0,
        };
        let text = replies.0.get(release).ok_or("a table is of an unknown release")?;
        self.take(text)?;
        Ok(release)
    }

    /// Ends the session: nothing more may come.
    fn end(mut self) -> Outcome<()> {
        self.stream.shutdown(Shutdown::Write)?;
        match self.from == self.to && self.stream.read(&mut self.bytes)? == 0 {
            true => Ok(()),
            false => Err("more than the replies came".into()),
        }
    }
}

/// An analyst's session: the lines that it writes at once, how many they are, the release of its
/// last reply, and how many different ones there were since the first.
struct Analyst<'a> {
    session: Session,
    replies: &'a Replies,
    lines: Vec<u8>,
    at_once: u64,
    newest: usize,
    releases: usize,
}

impl<'a> Analyst<'a> {
    /// Connects, and asks once.
    fn open(port: u16, replies: &'a Replies, query: &str, at_once: u64) -> Outcome<Analyst<'a>> {
        let mut session = Session::open(port)?;
        let line = format!("{query}\n");
        session.stream.write_all(line.as_bytes())?;
        let newest = session.take_reply(replies)?;
        let lines = line.repeat(at_once as usize).into_bytes();
        Ok(Analyst { session, replies, lines, at_once, newest, releases: 0 })
    }

    /// Asks until so many replies came or it is told to stop, and returns how many came.
    fn ask(&mut self, most: u64, should_stop: impl Fn() -> bool) -> Outcome<u64> {
        let mut count = 0;
        while count < most && !should_stop() {
            self.session.stream.write_all(&self.lines)?;
            for _ in 0..self.at_once {
                let release = self.session.take_reply(self.replies)?;
                if release < self.newest {
                    let newest = self.newest;
                    return Err(format!("release {release} came after release {newest}").into());
                }
                self.releases += usize::from(release > self.newest);
                self.newest = release;
            }
            count += self.at_once;
        }
        Ok(count)
    }
}

/// The custodian's session.
struct Custodian {
    session: Session,
    edits: Vec<u8>,
    answers: Vec<u8>,
}

impl Custodian {
    /// Publishes every batch, and returns how many they were.
    fn publish(&mut self) -> Outcome<usize> {
        let mut answers = self.answers.split_inclusive(|byte| *byte == b'\n');
        let mut batch = Vec::new();
        let mut published = 0;
        for line in self.edits.split_inclusive(|byte| *byte == b'\n') {
            batch.push(line);
            if line != b"publish\n" {
                continue;
            }
            self.session.stream.write_all(&batch.concat())?;
            for _ in batch.drain(..) {
                if let Some(digits) = self.session.line()?.strip_prefix(b"published ") {
                    published += 1;
                    if number(digits)? != published {
                        return Err("the custodian's releases aren't in order".into());
                    }
                }
                self.session.take(answers.next().ok_or("there are too few answers")?)?;
            }
        }
        match answers.next() {
            None => Ok(published),
            Some(_) => Err("there are too many answers".into()),
        }
    }
}

/// What one connection did: how many replies or batches, and when it began and ended.
type Done = (u64, Instant, Instant);

fn timed(start: &Barrier, work: impl FnOnce() -> Outcome<u64>) -> Outcome<Done> {
    start.wait();
    let began = Instant::now();
    let count = work()?;
    Ok((count, began, Instant::now()))
}

fn print_rate(dones: &[Done]) -> Outcome<()> {
    let replies: u64 = dones.iter().map(|done| done.0).sum();
    let began = dones.iter().map(|done| done.1).min().ok_or("there are no connections")?;
    let ended = dones.iter().map(|done| done.2).max().ok_or("there are no connections")?;
    println!("replies {replies} seconds {:.6}", (ended - began).as_secs_f64());
    Ok(())
}

fn open_all<'a>(
    port: u16,
    connections: &str,
    replies: &'a Replies,
    query: &str,
    at_once: u64,
) -> Outcome<Vec<Analyst<'a>>> {
    let at_door = connections.strip_prefix("door:");
    let connections: u16 = at_door.unwrap_or(connections).parse()?;
    let port_of = |i| port + if at_door.is_some() { 1 } else { i };
    (1..=connections).map(|i| Analyst::open(port_of(i), replies, query, at_once)).collect()
}

/// All of them ask at once, until so many replies came to each, or it is told to stop. Then they
/// end their sessions.
fn ask_all(
    analysts: Vec<Analyst>,
    start: &Barrier,
    most: u64,
    should_stop: impl Fn(Instant) -> bool + Sync,
) -> Outcome<(Vec<Done>, usize)> {
    let should_stop = &should_stop;
    let outcomes: Vec<_> = thread::scope(|scope| {
        let ask = |mut analyst: Analyst<'_>| {
            let done = timed(start, || {
                let began = Instant::now();
                analyst.ask(most, || should_stop(began))
            })?;
            let releases = analyst.releases;
            analyst.session.end()?;
            Ok((done, releases))
        };
        let spawn = |analyst| scope.spawn(move || ask(analyst));
        let threads: Vec<_> = analysts.into_iter().map(spawn).collect();
        threads.into_iter().map(|thread| thread.join().expect("no thread panics")).collect()
    });
    let outcomes = outcomes.into_iter().collect::<Outcome<Vec<(Done, usize)>>>()?;
    let fewest = outcomes.iter().map(|outcome| outcome.1).min().unwrap_or(0);
    Ok((outcomes.into_iter().map(|outcome| outcome.0).collect(), fewest))
}

fn ask(words: &[String]) -> Outcome<()> {
    let [port, connections, at_once, lines, seconds, replies, query] = words else {
        return Err("usage: client ask PORT CONNECTIONS AT_ONCE LINES SECONDS REPLIES QUERY".into());
    };
    let lines = lines.parse::<u64>()?.min(MOST_LINES);
    let limit = Duration::from_secs_f64(seconds.parse()?);
    let replies = Replies::read(replies)?;
    let analysts = open_all(port.parse()?, connections, &replies, query, at_once.parse()?)?;
    let start = Barrier::new(analysts.len());
    let (dones, _) = ask_all(analysts, &start, lines, |began| began.elapsed() >= limit)?;
    print_rate(&dones)
}

fn publish(words: &[String]) -> Outcome<()> {
    let [port, connections, seconds, replies, query, edits, answers] = words else {
        let usage = "PORT CONNECTIONS SECONDS REPLIES QUERY EDITS ANSWERS";
        return Err(format!("usage: client publish {usage}").into());
    };
    let port = port.parse()?;
    let limit = Duration::from_secs_f64(seconds.parse()?);
    let replies = Replies::read(replies)?;
    let analysts = open_all(port, connections, &replies, query, 1)?;
    let session = Session::open(port)?;
    let mut custodian =
        Custodian { session, edits: fs::read(edits)?, answers: fs::read(answers)? };
    let start = Barrier::new(analysts.len() + 1);
    let is_done = AtomicBool::new(false);
    let should_stop = |began: Instant| is_done.load(Ordering::Relaxed) || began.elapsed() >= limit;
    let (published, asked) = thread::scope(|scope| {
        let thread = scope.spawn(|| {
            start.wait();
            let published = custodian.publish();
            is_done.store(true, Ordering::Relaxed);
            published
        });
        let asked = ask_all(analysts, &start, MOST_LINES, should_stop);
        (thread.join().expect("no thread panics"), asked)
    });
    let (published, (dones, releases)) = (published?, asked?);
    custodian.session.end()?;
    print_rate(&dones)?;
    println!("published {published} releases {releases}");
    Ok(())
}

fn main() -> Outcome<()> {
    let words: Vec<String> = env::args().skip(1).collect();
    match words.split_first() {
        Some((command, words)) if command == "ask" => ask(words),
        Some((command, words)) if command == "publish" => publish(words),
        _ => Err("usage: client ask .. or client publish ..".into()),
    }
}
