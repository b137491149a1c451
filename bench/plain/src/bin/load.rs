//! Sends lines to a server of sessions over and over, and says how often it was answered.
//!
//! Each session has as many lines in flight as it is told, and waits for their replies before it sends more.

use std::fs;
use std::io::{self, BufRead, BufReader, Write};
use std::net::TcpStream;
use std::process::ExitCode;
use std::sync::atomic::{AtomicBool, Ordering};
use std::sync::Barrier;
use std::thread;
use std::time::{Duration, Instant};

const USAGE: &str = "\
usage: load PORT SESSIONS IN_FLIGHT MILLISECONDS FILE

Sends the lines of FILE in SESSIONS sessions to 127.0.0.1, and prints how many were answered and in how many seconds.";

const CAPACITY: usize = 65_536;

struct Plan {
    port: u16,
    sessions: usize,
    in_flight: usize,
    time: Duration,
    path: String,
}

impl Plan {
    fn read(words: &[String]) -> Option<Plan> {
        match words {
            [port, sessions, in_flight, time, path] => Some(Plan {
                port: port.parse().ok()?,
                sessions: sessions.parse().ok().filter(|it| *it > 0)?,
                in_flight: in_flight.parse().ok().filter(|it| *it > 0)?,
                time: Duration::from_millis(time.parse().ok()?),
                path: path.clone(),
            }),
            _ => None,
        }
    }
}

/// The lines of a text, some in each block, the last ones left out where they are too few.
fn blocks_of(text: &[u8], in_each: usize) -> Vec<Vec<u8>> {
    let lines: Vec<&[u8]> = text.split_inclusive(|byte| *byte == b'\n').collect();
    let blocks = lines.chunks_exact(in_each);
    blocks.map(|block| block.concat()).collect()
}

/// Sends block after block, until the time is over. How many lines were answered.
fn talk<'a>(
    socket: TcpStream,
    blocks: impl Iterator<Item = &'a Vec<u8>>,
    plan: &Plan,
    is_over: &AtomicBool,
) -> io::Result<u64> {
    let start = Instant::now();
    let mut replies = BufReader::with_capacity(CAPACITY, socket.try_clone()?);
    let (mut output, mut reply, mut count) = (socket, Vec::new(), 0);
    for block in blocks {
        if is_over.load(Ordering::Relaxed) || start.elapsed() >= plan.time {
            break;
        }
        output.write_all(block)?;
        for _ in 0..plan.in_flight {
            reply.clear();
            if replies.read_until(b'\n', &mut reply)? == 0 {
                return Err(io::ErrorKind::UnexpectedEof.into());
            }
            count += 1;
        }
    }
    is_over.store(true, Ordering::Relaxed);
    Ok(count)
}

fn connect(port: u16) -> io::Result<TcpStream> {
    let socket = TcpStream::connect(("127.0.0.1", port))?;
    socket.set_nodelay(true)?;
    Ok(socket)
}

/// How many lines all sessions were answered, and the time that it took.
fn load(plan: &Plan) -> io::Result<(u64, Duration)> {
    let blocks = blocks_of(&fs::read(&plan.path)?, plan.in_flight);
    if blocks.is_empty() {
        return Err(io::ErrorKind::InvalidData.into());
    }
    let sockets: io::Result<Vec<_>> = (0..plan.sessions).map(|_| connect(plan.port)).collect();
    let (barrier, is_over) = (Barrier::new(plan.sessions), AtomicBool::new(false));
    let start = Instant::now();
    let counts: io::Result<Vec<u64>> = thread::scope(|scope| {
        let begin = |(number, socket)| {
            let (barrier, is_over, blocks) = (&barrier, &is_over, &blocks);
            let index = number * blocks.len() / plan.sessions;
            scope.spawn(move || {
                barrier.wait();
                talk(socket, blocks.iter().cycle().skip(index), plan, is_over)
            })
        };
        let talks: Vec<_> = sockets?.into_iter().enumerate().map(begin).collect();
        let ends = talks.into_iter().map(|it| it.join());
        ends.map(|end| end.expect("a session does not panic"))
            .collect()
    });
    Ok((counts?.iter().sum(), start.elapsed()))
}

fn main() -> ExitCode {
    let words: Vec<String> = std::env::args().skip(1).collect();
    match Plan::read(&words).as_ref().map(load) {
        Some(Ok((count, time))) => {
            println!("{count} {:.6}", time.as_secs_f64());
            ExitCode::SUCCESS
        }
        Some(Err(fault)) => {
            eprintln!("load: {fault}");
            ExitCode::FAILURE
        }
        None => {
            eprintln!("{USAGE}");
            ExitCode::from(2)
        }
    }
}
