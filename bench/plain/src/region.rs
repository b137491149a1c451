//! A region: records and the marks of streams, with the commands that change it and those that only look, and the queries of these.

use crate::members::{ensure, is_field, is_key, text_of, Members, Refusal};
use crate::records::{join_all, join_cell, Batch, Body, Cell, Content, Records, Version};
use serde_json::{json, Map, Value};
use std::collections::BTreeMap;
use std::ops::Bound;

const MAX_STREAMS: usize = 16;

/// What a condition asks of a field's text.
enum Test {
    Has,
    Equal(String),
    Less(String),
    Greater(String),
    Prefix(String),
}

/// A field, and what its text has to be.
struct Condition {
    field: String,
    test: Test,
}

impl Condition {
    /// Reads a condition, or answers None where the value is none.
    fn read(value: &Value) -> Option<Condition> {
        let words: Option<Vec<&str>> = value.as_array()?.iter().map(Value::as_str).collect();
        let (field, test) = match words?[..] {
            ["has", field] => (field, Test::Has),
            ["eq", field, text] => (field, Test::Equal(text.to_string())),
            ["lt", field, text] => (field, Test::Less(text.to_string())),
            ["gt", field, text] => (field, Test::Greater(text.to_string())),
            ["prefix", field, text] => (field, Test::Prefix(text.to_string())),
            _ => return None,
        };
        let field = field.to_string();
        Some(Condition { field, test })
    }

    fn is_sound(&self) -> bool {
        let length = match &self.test {
            Test::Has => 0,
            Test::Equal(text) | Test::Less(text) => text.len(),
            Test::Greater(text) | Test::Prefix(text) => text.len(),
        };
        is_field(&self.field) && length <= 4_096
    }

    fn is_met(&self, fields: &[(String, String)]) -> bool {
        let index = fields.binary_search_by(|(name, _)| name.cmp(&self.field));
        let is_right = |text: &String| match &self.test {
            Test::Has => true,
            Test::Equal(other) => text == other,
            Test::Less(other) => text < other,
            Test::Greater(other) => text > other,
            Test::Prefix(other) => text.starts_with(other),
        };
        index.map_or(false, |index| is_right(&fields[index].1))
    }

    fn shown(&self) -> Value {
        match &self.test {
            Test::Has => json!(["has", self.field]),
            Test::Equal(text) => json!(["eq", self.field, text]),
            Test::Less(text) => json!(["lt", self.field, text]),
            Test::Greater(text) => json!(["gt", self.field, text]),
            Test::Prefix(text) => json!(["prefix", self.field, text]),
        }
    }
}

/// Which records a page shows.
pub struct Query {
    from: Option<String>,
    to: Option<String>,
    after: Option<String>,
    limit: u64,
    conditions: Vec<Condition>,
}

/// Records of a page with their keys, and the key after which the next one begins.
pub struct Page<'a> {
    pub rows: Vec<(&'a str, &'a Cell)>,
    pub next: Option<&'a str>,
}

impl Query {
    /// Reads a query. Limits are not looked at.
    pub fn read(value: Value) -> Result<Query, Refusal> {
        let mut members = Members::of(value, "query")?;
        let mut end = |member: &str| {
            let given = members.take_given(member);
            given.map(|value| text_of(value, "query")).transpose()
        };
        let (from, to, after) = (end("from")?, end("to")?, end("after")?);
        let limit = members.take("limit").map_or(Some(100), |it| it.as_u64());
        let conditions = match members.take("where") {
            None => Some(Vec::new()),
            Some(Value::Array(values)) => values.iter().map(Condition::read).collect(),
            Some(_) => None,
        };
        members.end("query")?;
        Ok(Query {
            from,
            to,
            after,
            limit: limit.ok_or(Refusal::BadShape("query"))?,
            conditions: conditions.ok_or(Refusal::BadShape("query"))?,
        })
    }

    /// Refuses a query that breaks a limit.
    pub fn check(&self) -> Result<(), Refusal> {
        let mut ends = [&self.from, &self.to, &self.after].into_iter().flatten();
        let are_keys = ends.all(|key| is_key(key));
        let is_count = (1..=1_000).contains(&self.limit) && self.conditions.len() <= 16;
        let are_sound = self.conditions.iter().all(Condition::is_sound);
        ensure(are_keys && is_count && are_sound, "query")
    }

    /// The first records that are asked for, up to the limit.
    pub fn page<'a>(&self, records: &'a Records) -> Page<'a> {
        let start = match (&self.from, &self.after) {
            (Some(from), Some(after)) if from > after => Bound::Included(from.as_str()),
            (_, Some(after)) => Bound::Excluded(after.as_str()),
            (Some(from), None) => Bound::Included(from.as_str()),
            (None, None) => Bound::Unbounded,
        };
        let is_below = |key: &str| self.to.as_deref().map_or(true, |to| key < to);
        let mut rows: Vec<_> = records
            .range::<str, _>((start, Bound::Unbounded))
            .map(|(key, cell)| (key.as_str(), cell))
            .take_while(|(key, _)| is_below(key))
            .filter(|(_, cell)| self.shows(cell))
            .take(self.limit as usize + 1)
            .collect();
        let is_more = rows.len() as u64 > self.limit;
        rows.truncate(self.limit as usize);
        let next = rows.last().map(|(key, _)| *key).filter(|_| is_more);
        Page { rows, next }
    }

    fn shows(&self, cell: &Cell) -> bool {
        let meets_all = |fields| self.conditions.iter().all(|it| it.is_met(fields));
        cell.bodies().any(meets_all)
    }

    /// The query for the rows after a key.
    pub fn shown_after(&self, after: &str) -> Value {
        let conditions: Vec<Value> = self.conditions.iter().map(Condition::shown).collect();
        json!({
            "after": after,
            "from": self.from,
            "limit": self.limit,
            "to": self.to,
            "where": conditions,
        })
    }
}

/// A command that changes nothing.
pub enum Lookup {
    Read {
        key: String,
        version: Option<Version>,
    },
    Get(Vec<String>),
    Scan(Query),
}

/// How far each stream was taken.
pub type Marks = BTreeMap<String, u64>;

/// The cells of the images of batches, with the marks after them.
pub fn reduce(marks: &Marks, batches: Vec<Batch>) -> Result<(Marks, Records), Refusal> {
    let (mut marks, mut cells) = (marks.clone(), Records::new());
    for batch in batches.into_iter().filter(|batch| !batch.images.is_empty()) {
        let (got, last) = (batch.first, batch.last());
        let mark = marks.get(&batch.stream).copied().unwrap_or(0);
        if got > mark + 1 {
            let (stream, wanted) = (batch.stream, mark + 1);
            return Err(Refusal::Gap {
                got,
                stream,
                wanted,
            });
        }
        marks.insert(batch.stream, last.max(mark));
        for image in batch.images {
            let (key, cell) = image.into_cell();
            join_cell(&mut cells, key, cell);
        }
    }
    if marks.len() > MAX_STREAMS {
        return Err(Refusal::TooManyStreams);
    }
    Ok((marks, cells))
}

/// What a script talks to.
#[derive(Default)]
pub struct Region {
    pub records: Records,
    pub marks: Marks,
}

impl Region {
    /// Takes batches in one round.
    pub fn deliver(&mut self, batches: Vec<Batch>) -> Result<Value, Refusal> {
        let (marks, cells) = reduce(&self.marks, batches)?;
        self.marks = marks;
        Ok(json!({"changed": join_all(&mut self.records, cells)}))
    }
}

/// The reply to a lookup.
pub fn look_up(records: &Records, lookup: Lookup) -> Result<Value, Refusal> {
    match lookup {
        Lookup::Read { key, version } => {
            let cell = records.get(&key);
            let has = cell.map(|cell| cell.version);
            if version.is_some() && has < version {
                return Err(Refusal::Behind(has));
            }
            Ok(json!({"row": shown_row(&key, cell)}))
        }
        Lookup::Get(keys) => {
            let rows = keys.iter().map(|key| shown_row(key, records.get(key)));
            Ok(json!({"rows": rows.collect::<Vec<_>>()}))
        }
        Lookup::Scan(query) => {
            let page = query.page(records);
            let rows = page.rows.iter().map(|(key, cell)| shown(key, cell));
            let next = page.next.map(|after| query.shown_after(after));
            Ok(json!({"next": next, "rows": rows.collect::<Vec<_>>()}))
        }
    }
}

fn shown_row(key: &str, cell: Option<&Cell>) -> Value {
    cell.map_or(Value::Null, |cell| shown(key, cell))
}

fn shown(key: &str, cell: &Cell) -> Value {
    let state = match cell.bodies().count() {
        0 => "deleted",
        _ if cell.contents.len() == 1 => "one",
        _ => "conflict",
    };
    json!({
        "contents": cell.contents.iter().map(shown_content).collect::<Vec<_>>(),
        "key": key,
        "state": state,
        "version": [cell.version.generation, cell.version.number],
    })
}

fn shown_content(content: &Content) -> Value {
    match &content.body {
        Body::Deleted => json!({"deleted": true, "master": content.master}),
        Body::Fields(fields) => {
            let fields = fields
                .iter()
                .map(|(name, text)| (name.clone(), Value::from(text.as_str())));
            json!({"fields": fields.collect::<Map<_, _>>(), "master": content.master})
        }
    }
}
