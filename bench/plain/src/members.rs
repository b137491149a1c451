//! Members of JSON objects, taken out one after another, the limits that many of them have, and why a line is refused.

use crate::records::Version;
use serde_json::{json, Map, Value};

/// The greatest position, generation and number.
pub const MAX_NUMBER: u64 = 1_000_000_000_000_000;

/// The first fault of a line.
pub enum Refusal {
    TooLong,
    NotJson,
    BadShape(&'static str),
    OutOfRange(&'static str),
    ReadOnly,
    Gap {
        got: u64,
        stream: String,
        wanted: u64,
    },
    TooManyStreams,
    Behind(Option<Version>),
}

impl Refusal {
    /// The reply to the refused line.
    pub fn reply(&self) -> Value {
        match self {
            Refusal::TooLong => json!({"error": "too-long"}),
            Refusal::NotJson => json!({"error": "not-json"}),
            Refusal::BadShape(member) => json!({"error": "bad-shape", "member": member}),
            Refusal::OutOfRange(member) => json!({"error": "out-of-range", "member": member}),
            Refusal::ReadOnly => json!({"error": "read-only"}),
            Refusal::Gap {
                got,
                stream,
                wanted,
            } => json!({"error": "gap", "got": got, "stream": stream, "wanted": wanted}),
            Refusal::TooManyStreams => json!({"error": "too-many-streams"}),
            Refusal::Behind(has) => {
                json!({"error": "behind", "has": has.map(|it| [it.generation, it.number])})
            }
        }
    }
}

/// The members of an object that were not taken yet.
pub struct Members(Map<String, Value>);

impl Members {
    /// The members of a value, where it is an object.
    pub fn of(value: Value, member: &'static str) -> Result<Members, Refusal> {
        match value {
            Value::Object(members) => Ok(Members(members)),
            _ => Err(Refusal::BadShape(member)),
        }
    }

    /// A member of any kind, where it is there.
    pub fn take(&mut self, member: &str) -> Option<Value> {
        self.0.remove(member)
    }

    /// A member that is there and not `null`.
    pub fn take_given(&mut self, member: &str) -> Option<Value> {
        self.take(member).filter(|value| !value.is_null())
    }

    /// A text.
    pub fn text(&mut self, member: &'static str) -> Result<String, Refusal> {
        text_of(self.take(member).unwrap_or_default(), member)
    }

    /// A whole number.
    pub fn whole(&mut self, member: &'static str) -> Result<u64, Refusal> {
        let value = self.take(member).and_then(|value| value.as_u64());
        value.ok_or(Refusal::BadShape(member))
    }

    /// An array.
    pub fn list(&mut self, member: &'static str) -> Result<Vec<Value>, Refusal> {
        match self.take(member) {
            Some(Value::Array(values)) => Ok(values),
            _ => Err(Refusal::BadShape(member)),
        }
    }

    /// Refuses members that nobody took.
    pub fn end(self, member: &'static str) -> Result<(), Refusal> {
        let is_empty = self.0.is_empty();
        is_empty.then(|| ()).ok_or(Refusal::BadShape(member))
    }
}

/// A value as a text.
pub fn text_of(value: Value, member: &'static str) -> Result<String, Refusal> {
    match value {
        Value::String(text) => Ok(text),
        _ => Err(Refusal::BadShape(member)),
    }
}

/// A value as a version.
pub fn version_of(value: &Value) -> Result<Version, Refusal> {
    let pair = value.as_array().map(Vec::as_slice).unwrap_or_default();
    match pair {
        [generation, number] => match (generation.as_u64(), number.as_u64()) {
            (Some(generation), Some(number)) => Ok(Version { generation, number }),
            _ => Err(Refusal::BadShape("version")),
        },
        _ => Err(Refusal::BadShape("version")),
    }
}

/// Refuses a member that breaks a limit.
pub fn ensure(holds: bool, member: &'static str) -> Result<(), Refusal> {
    holds.then(|| ()).ok_or(Refusal::OutOfRange(member))
}

/// Whether a key has as many bytes as it may.
pub fn is_key(text: &str) -> bool {
    (1..=256).contains(&text.len())
}

/// Whether a field's name has as many bytes as it may.
pub fn is_field(name: &str) -> bool {
    (1..=64).contains(&name.len())
}

/// Whether a text is the name of a stream or a master.
pub fn is_name(text: &str) -> bool {
    let is_lawful = |byte: u8| byte.is_ascii_lowercase() || byte.is_ascii_digit() || byte == b'-';
    (1..=32).contains(&text.len()) && text.bytes().all(is_lawful)
}

/// Whether a version is within its limits.
pub fn is_version(version: Version) -> bool {
    (1..=MAX_NUMBER).contains(&version.generation) && version.number <= MAX_NUMBER
}
