//! Records by their keys: the greatest version of each, with every content that came with it; their images, read from JSON values, and
//! the batches that bring them.

use crate::members::{ensure, is_field, is_key, is_name, is_version, text_of, version_of, Refusal};
use crate::members::{Members, MAX_NUMBER};
use serde_json::Value;
use std::collections::btree_map::Entry;
use std::collections::BTreeMap;

/// A version, compared by generation and then by number.
#[derive(Clone, Copy, PartialEq, Eq, PartialOrd, Ord)]
pub struct Version {
    pub generation: u64,
    pub number: u64,
}

/// What one update left of a record: nothing, or fields in the order of their names.
#[derive(PartialEq, Eq, PartialOrd, Ord)]
pub enum Body {
    Deleted,
    Fields(Vec<(String, String)>),
}

/// A body, and who wrote it.
#[derive(PartialEq, Eq, PartialOrd, Ord)]
pub struct Content {
    pub body: Body,
    pub master: String,
}

/// The state of a record. Its contents are in order, each once.
pub struct Cell {
    pub version: Version,
    pub contents: Vec<Content>,
}

impl Cell {
    /// Joins another cell of the same key into this one. True where this one changed.
    fn join(&mut self, other: Cell) -> bool {
        if other.version != self.version {
            let is_newer = other.version > self.version;
            if is_newer {
                *self = other;
            }
            return is_newer;
        }
        let before = self.contents.len();
        for content in other.contents {
            if let Err(index) = self.contents.binary_search(&content) {
                self.contents.insert(index, content);
            }
        }
        self.contents.len() > before
    }

    /// The bodies of this record that are no deletions, each as its fields.
    pub fn bodies(&self) -> impl Iterator<Item = &[(String, String)]> {
        self.contents
            .iter()
            .filter_map(|content| match &content.body {
                Body::Deleted => None,
                Body::Fields(fields) => Some(fields.as_slice()),
            })
    }
}

/// Records by their keys.
pub type Records = BTreeMap<String, Cell>;

/// Joins a cell into records. True where its record changed.
pub fn join_cell(records: &mut Records, key: String, cell: Cell) -> bool {
    match records.entry(key) {
        Entry::Occupied(mut there) => there.get_mut().join(cell),
        Entry::Vacant(entry) => {
            entry.insert(cell);
            true
        }
    }
}

/// Joins cells into records. How many records changed.
pub fn join_all(records: &mut Records, cells: Records) -> usize {
    cells
        .into_iter()
        .map(|(key, cell)| join_cell(records, key, cell))
        .filter(|is_changed| *is_changed)
        .count()
}

/// Everything about one record, as one update left it.
pub struct Image {
    pub key: String,
    version: Version,
    content: Content,
}

impl Image {
    /// Reads an image whose members are of the right kinds. Limits are not looked at.
    pub fn read(value: Value) -> Result<Image, Refusal> {
        let mut members = Members::of(value, "whole")?;
        let deleted = members.take("deleted");
        if deleted.iter().any(|value| *value != Value::Bool(true)) {
            return Err(Refusal::BadShape("deleted"));
        }
        let body = match (members.take("fields"), deleted) {
            (None, Some(_)) => Body::Deleted,
            (Some(Value::Object(fields)), None) => Body::Fields(
                fields
                    .into_iter()
                    .map(|(name, value)| Ok((name, text_of(value, "fields")?)))
                    .collect::<Result<_, Refusal>>()?,
            ),
            _ => return Err(Refusal::BadShape("fields")),
        };
        let key = members.text("key")?;
        let master = members.text("master")?;
        let version = version_of(&members.take("version").unwrap_or_default())?;
        members.end("other")?;
        let content = Content { body, master };
        Ok(Image {
            key,
            version,
            content,
        })
    }

    /// Refuses an image that breaks a limit.
    pub fn check(&self) -> Result<(), Refusal> {
        if let Body::Fields(fields) = &self.content.body {
            let lengths = fields.iter().map(|(name, text)| name.len() + text.len());
            let is_sound = |(name, text): &(String, String)| is_field(name) && text.len() <= 4_096;
            let all = fields.len() <= 64 && fields.iter().all(is_sound);
            ensure(all && lengths.sum::<usize>() <= 8_192, "fields")?;
        }
        ensure(is_key(&self.key), "key")?;
        ensure(is_name(&self.content.master), "master")?;
        ensure(is_version(self.version), "version")
    }

    /// The key and the cell that has this image alone.
    pub fn into_cell(self) -> (String, Cell) {
        let cell = Cell {
            version: self.version,
            contents: vec![self.content],
        };
        (self.key, cell)
    }
}

/// Images of a stream, of which the first is at a position.
pub struct Batch {
    pub first: u64,
    pub images: Vec<Image>,
    pub stream: String,
}

impl Batch {
    /// Reads a batch whose members are of the right kinds. Limits are not looked at.
    pub fn read(value: Value) -> Result<Batch, Refusal> {
        let mut members = Members::of(value, "batches")?;
        let first = members.whole("first")?;
        let images = members.list("images")?;
        let images = images
            .into_iter()
            .map(Image::read)
            .collect::<Result<_, _>>()?;
        let stream = members.text("stream")?;
        members.end("other")?;
        Ok(Batch {
            first,
            images,
            stream,
        })
    }

    /// The position of the last image, or of the first where there is none.
    pub fn last(&self) -> u64 {
        self.first
            .saturating_add((self.images.len() as u64).saturating_sub(1))
    }

    /// Refuses a batch that breaks a limit.
    pub fn check(&self) -> Result<(), Refusal> {
        ensure(self.first >= 1 && self.last() <= MAX_NUMBER, "first")?;
        self.images.iter().try_for_each(Image::check)?;
        ensure(is_name(&self.stream), "stream")
    }
}
