//! Lines of an input as commands, each with a reply in an output.

use crate::members::{ensure, is_key, is_version, text_of, version_of, Members, Refusal};
use crate::records::Batch;
use crate::region::{look_up, Lookup, Query, Region};
use serde_json::{json, Value};
use std::io::{self, BufRead, BufReader, BufWriter, Read, Write};

const MAX_LINE_BYTES: usize = 65_536;
const CAPACITY: usize = 65_536;

/// What a line asks for.
pub enum Command {
    Deliver(Vec<Batch>),
    Look(Lookup),
    Marks,
}

impl Command {
    /// Reads a line without its newline.
    pub fn read(line: &[u8]) -> Result<Command, Refusal> {
        if line.len() > MAX_LINE_BYTES {
            return Err(Refusal::TooLong);
        }
        let value = serde_json::from_slice(line).map_err(|_| Refusal::NotJson)?;
        let mut members = Members::of(value, "whole")?;
        let word = members.text("do")?;
        let command = match word.as_str() {
            "deliver" => Command::Deliver(batches_of(&mut members)?),
            "get" => Command::Look(Lookup::Get(keys_of(&mut members)?)),
            "marks" => Command::Marks,
            "read" => Command::Look(read_of(&mut members)?),
            "scan" => {
                let query = members.take("query").unwrap_or_default();
                Command::Look(Lookup::Scan(Query::read(query)?))
            }
            _ => return Err(Refusal::BadShape("do")),
        };
        members.end("other")?;
        command.check()?;
        Ok(command)
    }

    fn check(&self) -> Result<(), Refusal> {
        match self {
            Command::Deliver(batches) => {
                ensure((1..=64).contains(&batches.len()), "batches")?;
                batches.iter().try_for_each(Batch::check)
            }
            Command::Look(Lookup::Get(keys)) => {
                let are_keys = keys.iter().all(|key| is_key(key));
                ensure((1..=100).contains(&keys.len()) && are_keys, "keys")
            }
            Command::Look(Lookup::Read { key, version }) => {
                ensure(is_key(key), "key")?;
                ensure(version.map_or(true, is_version), "version")
            }
            Command::Look(Lookup::Scan(query)) => query.check(),
            Command::Marks => Ok(()),
        }
    }
}

fn batches_of(members: &mut Members) -> Result<Vec<Batch>, Refusal> {
    let batches = members.list("batches")?;
    batches.into_iter().map(Batch::read).collect()
}

fn keys_of(members: &mut Members) -> Result<Vec<String>, Refusal> {
    let keys = members.list("keys")?;
    keys.into_iter().map(|it| text_of(it, "keys")).collect()
}

fn read_of(members: &mut Members) -> Result<Lookup, Refusal> {
    let key = members.text("key")?;
    let version = members.take_given("version");
    let version = version.as_ref().map(version_of).transpose()?;
    Ok(Lookup::Read { key, version })
}

/// The reply of a region to a line of a script.
pub fn answer(region: &mut Region, line: &[u8]) -> Value {
    let reply = Command::read(line).and_then(|command| match command {
        Command::Deliver(batches) => region.deliver(batches),
        Command::Look(lookup) => look_up(&region.records, lookup),
        Command::Marks => Ok(json!({"marks": region.marks})),
    });
    reply.unwrap_or_else(|refusal| refusal.reply())
}

/// The command of a session's line, which has to be a lookup.
pub fn lookup_of(line: &[u8]) -> Result<Lookup, Refusal> {
    match Command::read(line)? {
        Command::Look(lookup) => Ok(lookup),
        _ => Err(Refusal::ReadOnly),
    }
}

/// The next line without its newline, or None at the end.
pub fn next_line<'a>(
    input: &mut impl BufRead,
    line: &'a mut Vec<u8>,
) -> io::Result<Option<&'a [u8]>> {
    line.clear();
    let count = input.read_until(b'\n', line)?;
    let text = line.strip_suffix(b"\n").unwrap_or(line);
    Ok(Some(text).filter(|_| count > 0))
}

/// Answers line after line. Replies go out before more input is waited for.
pub fn answer_lines(
    input: impl Read,
    output: impl Write,
    mut answer: impl FnMut(&[u8]) -> Value,
) -> io::Result<()> {
    let mut input = BufReader::with_capacity(CAPACITY, input);
    let mut output = BufWriter::with_capacity(CAPACITY, output);
    let mut line = Vec::new();
    while let Some(text) = next_line(&mut input, &mut line)? {
        serde_json::to_writer(&mut output, &answer(text))?;
        output.write_all(b"\n")?;
        if !input.buffer().contains(&b'\n') {
            output.flush()?;
        }
    }
    output.flush()
}
