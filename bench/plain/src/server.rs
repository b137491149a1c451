//! A server of sessions over TCP, one thread each, while streams are read.

use crate::commands::{answer_lines, lookup_of, next_line};
use crate::members::{Members, Refusal};
use crate::records::{join_all, Batch, Image, Records};
use crate::region::{look_up, reduce, Marks};
use std::fs::File;
use std::io::{self, BufReader};
use std::net::{TcpListener, TcpStream};
use std::sync::{PoisonError, RwLock};
use std::thread;

/// How many messages of each stream are taken in one round.
const MAX_MESSAGES: usize = 1_000;

/// A stream that is read: its name, its file, and the position of the next message.
struct Stream {
    name: String,
    file: BufReader<File>,
    next: u64,
}

impl Stream {
    fn open(name: String, path: &str) -> io::Result<Stream> {
        let file = BufReader::new(File::open(path)?);
        Ok(Stream {
            name,
            file,
            next: 1,
        })
    }

    /// The messages that come next.
    fn batch(&mut self) -> io::Result<Batch> {
        let (first, stream) = (self.next, self.name.clone());
        let (mut images, mut line) = (Vec::new(), Vec::new());
        while images.len() < MAX_MESSAGES {
            match next_line(&mut self.file, &mut line)? {
                Some(text) => images.push(image_at(text, self.next).map_err(fault_of)?),
                None => break,
            }
            self.next += 1;
        }
        Ok(Batch {
            first,
            images,
            stream,
        })
    }
}

/// The image of the message that stands at a position.
fn image_at(line: &[u8], position: u64) -> Result<Image, Refusal> {
    let value = serde_json::from_slice(line).map_err(|_| Refusal::NotJson)?;
    let mut members = Members::of(value, "whole")?;
    if members.whole("at")? != position {
        return Err(Refusal::OutOfRange("at"));
    }
    let image = Image::read(members.take("image").unwrap_or_default())?;
    members.end("other")?;
    image.check()?;
    Ok(image)
}

fn fault_of(refusal: Refusal) -> io::Error {
    io::Error::new(io::ErrorKind::InvalidData, refusal.reply().to_string())
}

/// Takes round after round, until all streams are at their ends.
fn load(records: &RwLock<Records>, streams: &mut [Stream]) -> io::Result<()> {
    let mut marks = Marks::new();
    loop {
        let batches = streams.iter_mut().map(Stream::batch);
        let batches = batches.collect::<io::Result<Vec<_>>>()?;
        if batches.iter().all(|batch| batch.images.is_empty()) {
            return Ok(());
        }
        let (next, cells) = reduce(&marks, batches).map_err(fault_of)?;
        marks = next;
        let mut locked = records.write().unwrap_or_else(PoisonError::into_inner);
        join_all(&mut locked, cells);
    }
}

fn talk(records: &RwLock<Records>, socket: TcpStream) -> io::Result<()> {
    socket.set_nodelay(true)?;
    answer_lines(&socket, &socket, |line| {
        let reply = lookup_of(line).and_then(|lookup| {
            let locked = records.read().unwrap_or_else(PoisonError::into_inner);
            look_up(&locked, lookup)
        });
        reply.unwrap_or_else(|refusal| refusal.reply())
    })
}

/// Serves as many sessions as it is told, while it reads streams, each a name and a path.
pub fn serve(port: u16, sessions: usize, streams: &[(String, String)]) -> io::Result<()> {
    let records = RwLock::new(Records::new());
    let mut streams = streams
        .iter()
        .map(|(name, path)| Stream::open(name.clone(), path))
        .collect::<io::Result<Vec<_>>>()?;
    let listener = TcpListener::bind(("127.0.0.1", port))?;
    println!("listening on 127.0.0.1:{}", listener.local_addr()?.port());
    thread::scope(|scope| {
        for _ in 0..sessions {
            scope.spawn(|| {
                let socket = listener.accept().map(|(socket, _)| socket);
                if let Err(fault) = socket.and_then(|socket| talk(&records, socket)) {
                    eprintln!("plain: session: {fault}");
                }
            });
        }
        load(&records, &mut streams)
    })?;
    println!("served {sessions}");
    Ok(())
}
