//! A plain Rust region, which the figures of pnuts stand beside: one `BTreeMap` of typed cells, and `serde_json` values.
//!
//! It answers the commands `deliver`, `read`, `get`, `scan` and `marks` as docs/lines.md says, and serves sessions.

mod commands;
mod members;
mod records;
mod region;
mod server;

use crate::members::Refusal;
use crate::region::Region;
use serde_json::Value;
use std::io;
use std::process::ExitCode;

const USAGE: &str = "\
usage: plain replay                        answers a script on standard input
       plain serve PORT SESSIONS NAME=PATH..   serves sessions on 127.0.0.1, while it reads streams
       plain json                         says of each line of standard input whether serde_json reads it";

/// What the arguments ask for.
enum Plan {
    Replay,
    Json,
    Serve {
        port: u16,
        sessions: usize,
        streams: Vec<(String, String)>,
    },
}

impl Plan {
    fn read(words: &[String]) -> Option<Plan> {
        match words {
            [word] if word == "replay" => Some(Plan::Replay),
            [word] if word == "json" => Some(Plan::Json),
            [word, port, sessions, streams @ ..] if word == "serve" => Some(Plan::Serve {
                port: port.parse().ok()?,
                sessions: sessions.parse().ok()?,
                streams: streams
                    .iter()
                    .map(|it| stream_of(it))
                    .collect::<Option<_>>()?,
            }),
            _ => None,
        }
    }

    fn run(self) -> io::Result<()> {
        match self {
            Plan::Replay => {
                let mut region = Region::default();
                let answer = |line: &[u8]| commands::answer(&mut region, line);
                commands::answer_lines(io::stdin().lock(), io::stdout().lock(), answer)
            }
            Plan::Json => {
                commands::answer_lines(io::stdin().lock(), io::stdout().lock(), reading_of)
            }
            Plan::Serve {
                port,
                sessions,
                streams,
            } => server::serve(port, sessions, &streams),
        }
    }
}

/// Null where a line is JSON, and otherwise its refusal.
fn reading_of(line: &[u8]) -> Value {
    match serde_json::from_slice::<Value>(line) {
        Ok(_) => Value::Null,
        Err(_) => Refusal::NotJson.reply(),
    }
}

fn stream_of(word: &str) -> Option<(String, String)> {
    let (name, path) = word.split_once('=')?;
    Some((name.to_string(), path.to_string()))
}

fn main() -> ExitCode {
    let words: Vec<String> = std::env::args().skip(1).collect();
    match Plan::read(&words).map(Plan::run) {
        Some(Ok(())) => ExitCode::SUCCESS,
        Some(Err(fault)) => {
            eprintln!("plain: {fault}");
            ExitCode::FAILURE
        }
        None => {
            eprintln!("{USAGE}");
            ExitCode::from(2)
        }
    }
}
