//! Viewers that keep their connections: each asks for the targets of its list one after another, and notes how long each whole answer took.
//!
//!     rustc --edition 2021 -O -o /tmp/load bench/load/load.rs
//!     /tmp/load LISTS TIMES [KEPT]
//!
//! LISTS has a line `ADDRESS TARGET` for each request, and an empty line between two viewers. All viewers connect first and begin at once. A
//! viewer whose connection is closed before an answer's first byte connects anew and asks again; the time goes on. With LOOKS in the environment each viewer looks for
//! its answer for up to 5 ms before it sleeps until it comes: then how long this machine takes to wake a thread is no part of the times. TIMES gets a line for
//! each request: viewer, begin and length in microseconds, status, bytes of the body, connections that were closed unanswered, a check sum
//! of the body, the target. With KEPT the first answer to each distinct target is kept as a file in that folder, head and body, by the
//! target's number in the order of LISTS; such a run is for checking, not for times. The status is 1 where an answer isn't whole, or
//! where equal requests of one run were answered by unequal bytes.
use std::collections::HashMap;
use std::fmt::Write as _;
use std::io::{Error, ErrorKind, Read, Result, Write};
use std::net::TcpStream;
use std::sync::{Barrier, Mutex};
use std::time::{Duration, Instant};
use std::{env, fs, hint, process, thread};

/// How often a request is asked again whose connection was closed unanswered, and how long a read may wait.
const TRIES: u32 = 2000;
const PATIENCE: Duration = Duration::from_secs(120);

/// Heads and bodies of the first answers, by their targets.
type Kept = HashMap<String, (String, Vec<u8>)>;

struct Request<'a> {
    address: &'a str,
    target: &'a str,
}

/// The head of a whole answer, and whether the connection stays.
struct Answer {
    head: String,
    stays: bool,
}

/// What became of one request.
struct Outcome {
    begun: Duration,
    took: Duration,
    status: u32,
    bytes: usize,
    away: u32,
    sum: u64,
}

/// How long a viewer who looks for what comes does so before it sleeps.
const MOMENT: Duration = Duration::from_millis(5);

/// A connection and what was read of it and isn't used yet, from `at` to `end` of `held`. Where it `looks`, its reads don't wait.
struct Link {
    stream: TcpStream,
    looks: bool,
    held: Vec<u8>,
    at: usize,
    end: usize,
}

fn early() -> Error {
    Error::new(ErrorKind::UnexpectedEof, "the connection ended inside an answer")
}

impl Link {
    fn connect(address: &str, looks: bool) -> Result<Link> {
        let stream = TcpStream::connect(address)?;
        stream.set_nodelay(true)?;
        stream.set_read_timeout(Some(PATIENCE))?;
        stream.set_nonblocking(looks)?;
        Ok(Link { stream, looks, held: vec![0; 1 << 14], at: 0, end: 0 })
    }

    /// Reads what comes: it is looked for a moment, and then waited for.
    fn read(mut stream: &TcpStream, looks: bool, into: &mut [u8]) -> Result<usize> {
        if !looks {
            return stream.read(into);
        }
        let begun = Instant::now();
        while begun.elapsed() < MOMENT {
            match stream.read(into) {
                Err(error) if error.kind() == ErrorKind::WouldBlock => hint::spin_loop(),
                other => return other,
            }
        }
        stream.set_nonblocking(false)?;
        let got = stream.read(into);
        stream.set_nonblocking(true)?;
        got
    }

    /// Reads more; false at the end of the connection.
    fn more(&mut self) -> Result<bool> {
        self.held.copy_within(self.at..self.end, 0);
        (self.at, self.end) = (0, self.end - self.at);
        if self.end == self.held.len() {
            self.held.resize(2 * self.end, 0);
        }
        let got = Link::read(&self.stream, self.looks, &mut self.held[self.end..])?;
        self.end += got;
        Ok(got > 0)
    }

    /// The text up to `end`, without it.
    fn until(&mut self, end: &[u8]) -> Result<Vec<u8>> {
        loop {
            let held = &self.held[self.at..self.end];
            if let Some(found) = held.windows(end.len()).position(|part| part == end) {
                let text = held[..found].to_vec();
                self.at += found + end.len();
                return Ok(text);
            }
            if !self.more()? {
                return Err(early());
            }
        }
    }

    /// Reads so many bytes: those that are held, and the others straight to their place.
    fn take(&mut self, count: usize, into: &mut [u8]) -> Result<()> {
        let held = count.min(self.end - self.at);
        into[..held].copy_from_slice(&self.held[self.at..self.at + held]);
        self.at += held;
        let mut left = &mut into[held..];
        while !left.is_empty() {
            match Link::read(&self.stream, self.looks, left)? {
                0 => return Err(early()),
                got => left = &mut left[got..],
            }
        }
        Ok(())
    }

    /// Sends a request and reads its answer, whose body is left in `body`; nothing where the connection is closed before an answer's first
    /// byte.
    fn ask(&mut self, request: &Request, sent: &mut Vec<u8>, body: &mut Vec<u8>) -> Result<Option<Answer>> {
        sent.clear();
        write!(sent, "GET {} HTTP/1.1\r\nHost: {}\r\n\r\n", request.target, request.address)?;
        let is_open = self.stream.write_all(sent).is_ok() && match self.more() {
            Ok(more) => more,
            Err(error) if error.kind() == ErrorKind::ConnectionReset => false,
            Err(error) => return Err(error),
        };
        if !is_open {
            return Ok(None);
        }
        let head = String::from_utf8_lossy(&self.until(b"\r\n\r\n")?).into_owned() + "\r\n\r\n";
        self.body(&head, body)?;
        let stays = field(&head, "connection").is_none_or(|value| !value.eq_ignore_ascii_case("close"));
        Ok(Some(Answer { head, stays }))
    }

    /// The body that a head announces: of so many bytes, or in chunks.
    fn body(&mut self, head: &str, body: &mut Vec<u8>) -> Result<()> {
        if let Some(length) = field(head, "content-length").and_then(|value| value.parse().ok()) {
            body.resize(length, 0);
            return self.take(length, body);
        }
        body.clear();
        loop {
            let line = self.until(b"\r\n")?;
            let digits = String::from_utf8_lossy(&line);
            let size = usize::from_str_radix(digits.trim(), 16).map_err(|_| Error::new(ErrorKind::InvalidData, "no length"))?;
            let front = body.len();
            body.resize(front + size, 0);
            self.take(size, &mut body[front..])?;
            self.until(b"\r\n")?;
            if size == 0 {
                return Ok(());
            }
        }
    }
}

/// The value of a field of a head.
fn field<'a>(head: &'a str, name: &str) -> Option<&'a str> {
    head.lines().skip(1).filter_map(|line| line.split_once(':')).find(|(key, _)| key.eq_ignore_ascii_case(name)).map(|(_, value)| value.trim())
}

/// A check sum of bytes, cheap beside what makes them: of four words at a time, each in a sum of its own.
fn check_sum(bytes: &[u8]) -> u64 {
    let mixed = |sum: u64, word: u64| (sum ^ word).wrapping_mul(0x9e37_79b9_7f4a_7c15).rotate_left(29);
    let blocks = bytes.chunks_exact(32);
    let rest = blocks.remainder().iter().fold(bytes.len() as u64, |sum, &byte| mixed(sum, u64::from(byte)));
    let sums = blocks.fold([rest, 1, 2, 3], |sums, block| {
        let word = |n: usize| u64::from_le_bytes(block[8 * n..8 * n + 8].try_into().unwrap_or_default());
        [mixed(sums[0], word(0)), mixed(sums[1], word(1)), mixed(sums[2], word(2)), mixed(sums[3], word(3))]
    });
    sums.into_iter().fold(0, mixed)
}

/// Asks for a list, one request after another; the answers that are kept go to `kept`.
fn viewer(list: &[Request], looks: bool, start: &Barrier, began: &Mutex<Option<Instant>>, kept: Option<&Mutex<Kept>>) -> Result<Vec<Outcome>> {
    let connected = list.first().map(|request| Link::connect(request.address, looks)).transpose();
    let mut outcomes = Vec::with_capacity(list.len());
    let (mut sent, mut body) = (Vec::new(), Vec::new());
    start.wait();
    let mut link = connected?;
    let zero = *began.lock().unwrap().get_or_insert_with(Instant::now);
    for (n, request) in list.iter().enumerate() {
        let begun = Instant::now();
        let mut away = 0;
        let answer = loop {
            let mut open = match link.take() {
                Some(open) if n == 0 || list[n - 1].address == request.address => open,
                _ => Link::connect(request.address, looks)?,
            };
            if let Some(answer) = open.ask(request, &mut sent, &mut body)? {
                link = answer.stays.then_some(open);
                break answer;
            }
            away += 1;
            if away == TRIES {
                return Err(Error::new(ErrorKind::ConnectionAborted, "closed unanswered each time"));
            }
            thread::sleep(Duration::from_millis(1));
        };
        let took = begun.elapsed();
        let status = answer.head.split(' ').nth(1).and_then(|text| text.parse().ok()).unwrap_or(0);
        outcomes.push(Outcome { begun: begun - zero, took, status, bytes: body.len(), away, sum: check_sum(&body) });
        if let Some(kept) = kept {
            kept.lock().unwrap().entry(request.target.to_string()).or_insert_with(|| (answer.head, body.clone()));
        }
    }
    Ok(outcomes)
}

/// Writes the times, and gives whether equal requests were answered by equal bytes.
fn report(lists: &[Vec<Request>], all: &[Vec<Outcome>], path: &str) -> Result<bool> {
    let mut text = String::new();
    let mut sums = HashMap::new();
    let mut is_equal = true;
    for (number, (list, outcomes)) in lists.iter().zip(all).enumerate() {
        for (request, it) in list.iter().zip(outcomes) {
            let (begun, took) = (it.begun.as_micros(), it.took.as_micros());
            let _ = writeln!(text, "{number} {begun} {took} {} {} {} {:016x} {}", it.status, it.bytes, it.away, it.sum, request.target);
            is_equal &= *sums.entry(request.target).or_insert(it.sum) == it.sum;
        }
    }
    fs::write(path, text)?;
    Ok(is_equal)
}

fn keep(lists: &[Vec<Request>], kept: Kept, folder: &str) -> Result<()> {
    let mut number = HashMap::new();
    for request in lists.iter().flatten() {
        let next = number.len();
        number.entry(request.target).or_insert(next);
    }
    for (target, (head, body)) in kept {
        let mut file = fs::File::create(format!("{folder}/{}", number[target.as_str()]))?;
        file.write_all(head.as_bytes())?;
        file.write_all(&body)?;
    }
    Ok(())
}

fn main() -> Result<()> {
    let words: Vec<String> = env::args().skip(1).collect();
    let [lists, times, folder @ ..] = words.as_slice() else {
        eprintln!("load LISTS TIMES [KEPT]");
        process::exit(2);
    };
    let text = fs::read_to_string(lists)?;
    let lists: Vec<Vec<Request>> = text.trim_end().split("\n\n").map(|part| {
        part.lines().filter_map(|line| line.split_once(' ')).map(|(address, target)| Request { address, target }).collect()
    }).collect();
    let (start, began) = (Barrier::new(lists.len()), Mutex::new(None));
    let kept = folder.first().map(|_| Mutex::new(HashMap::new()));
    let looks = env::var_os("LOOKS").is_some();
    let all = thread::scope(|scope| {
        let viewers: Vec<_> = lists.iter().map(|list| scope.spawn(|| viewer(list, looks, &start, &began, kept.as_ref()))).collect();
        viewers.into_iter().map(|it| it.join().unwrap_or_else(|_| Err(early()))).collect::<Result<Vec<_>>>()
    })?;
    let is_equal = report(&lists, &all, times)?;
    if let (Some(folder), Some(kept)) = (folder.first(), kept) {
        keep(&lists, kept.into_inner().unwrap_or_default(), folder)?;
    }
    if !is_equal {
        eprintln!("equal requests were answered by unequal bytes");
        process::exit(1);
    }
    Ok(())
}
