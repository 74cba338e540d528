//! The same flat text in plain Rust, with nothing proved: what `bench/flat` holds the proved codec against.
//! `flat NAME N` prints the line of `kit_bench`, and `length NAME` how many bytes the flat text has. `run.rs` takes its
//! messages from here.

use std::hint::black_box;
use std::process::ExitCode;

const MAGIC: &[u8; 4] = b"AKM1";
const FLAT_LIMIT: usize = 4096;
const FIELD_LIMIT: u32 = 64;
const NAME_LIMIT: usize = 64;
const BLOCK_LIMIT: usize = 1024;
const DEPTH_LIMIT: u32 = 16;
const ROUND_LIMIT: u32 = 10_000_000;

#[derive(Clone, Copy, Debug, PartialEq, Eq)]
pub enum Kind {
    Bool,
    Int8,
    Int16,
    Int32,
    Int64,
    UInt8,
    UInt16,
    UInt32,
    UInt64,
    Text,
    Message,
    Messenger,
    Raw,
}

impl Kind {
    pub fn letters(self) -> [u8; 4] {
        *match self {
            Kind::Bool => b"BOOL",
            Kind::Int8 => b"BYTE",
            Kind::Int16 => b"SHRT",
            Kind::Int32 => b"LONG",
            Kind::Int64 => b"LLNG",
            Kind::UInt8 => b"UBYT",
            Kind::UInt16 => b"USHT",
            Kind::UInt32 => b"ULNG",
            Kind::UInt64 => b"ULLG",
            Kind::Text => b"CSTR",
            Kind::Message => b"MSGG",
            Kind::Messenger => b"MSNG",
            Kind::Raw => b"RAWT",
        }
    }

    fn from_letters(letters: [u8; 4]) -> Option<Kind> {
        Some(match &letters {
            b"BOOL" => Kind::Bool,
            b"BYTE" => Kind::Int8,
            b"SHRT" => Kind::Int16,
            b"LONG" => Kind::Int32,
            b"LLNG" => Kind::Int64,
            b"UBYT" => Kind::UInt8,
            b"USHT" => Kind::UInt16,
            b"ULNG" => Kind::UInt32,
            b"ULLG" => Kind::UInt64,
            b"CSTR" => Kind::Text,
            b"MSGG" => Kind::Message,
            b"MSNG" => Kind::Messenger,
            b"RAWT" => Kind::Raw,
            _ => return None,
        })
    }

    /// Whether a value of this kind may have this length.
    fn allows(self, len: usize) -> bool {
        match self {
            Kind::Bool | Kind::Int8 | Kind::UInt8 => len == 1,
            Kind::Int16 | Kind::UInt16 => len == 2,
            Kind::Int32 | Kind::UInt32 => len == 4,
            Kind::Int64 | Kind::UInt64 => len == 8,
            Kind::Text | Kind::Raw => len <= BLOCK_LIMIT,
            Kind::Message => true,
            Kind::Messenger => len == 13,
        }
    }
}

#[derive(Debug)]
pub enum Target {
    Preferred,
    Token(u64),
}

#[derive(Debug)]
pub struct Address {
    pub looper: u32,
    pub target: Target,
}

#[derive(Debug)]
pub enum Value {
    Bool(bool),
    Int8(i8),
    Int16(i16),
    Int32(i32),
    Int64(i64),
    UInt8(u8),
    UInt16(u16),
    UInt32(u32),
    UInt64(u64),
    Text(String),
    Message(Message),
    Messenger(Address),
    Raw(Vec<u8>),
}

#[derive(Debug)]
pub struct Field {
    pub name: Vec<u8>,
    pub kind: Kind,
    pub values: Vec<Value>,
}

#[derive(Debug)]
pub struct Message {
    pub what: u32,
    pub fields: Vec<Field>,
}

impl Message {
    /// A message with one field.
    pub fn with(what: u32, name: &str, kind: Kind, values: Vec<Value>) -> Message {
        let mut message = Message {
            what,
            fields: Vec::new(),
        };
        message.put(name, kind, values);
        message
    }

    pub fn put(&mut self, name: &str, kind: Kind, values: Vec<Value>) {
        self.fields.push(Field {
            name: name.as_bytes().to_vec(),
            kind,
            values,
        });
    }
}

// Writing

#[derive(Debug)]
pub struct TooLong;

fn flat_len(message: &Message) -> usize {
    12 + message.fields.iter().map(field_len).sum::<usize>()
}

fn field_len(field: &Field) -> usize {
    6 + field.name.len() + field.values.iter().map(|value| 2 + value_len(value)).sum::<usize>()
}

fn value_len(value: &Value) -> usize {
    match value {
        Value::Bool(_) | Value::Int8(_) | Value::UInt8(_) => 1,
        Value::Int16(_) | Value::UInt16(_) => 2,
        Value::Int32(_) | Value::UInt32(_) => 4,
        Value::Int64(_) | Value::UInt64(_) => 8,
        Value::Text(text) => text.len(),
        Value::Message(message) => flat_len(message),
        Value::Messenger(_) => 13,
        Value::Raw(raw) => raw.len(),
    }
}

pub fn flatten(message: &Message) -> Result<Vec<u8>, TooLong> {
    let len = flat_len(message);
    if len > FLAT_LIMIT {
        return Err(TooLong);
    }
    let mut out = Vec::with_capacity(len);
    put_message(&mut out, message);
    Ok(out)
}

fn put_message(out: &mut Vec<u8>, message: &Message) {
    out.extend_from_slice(MAGIC);
    out.extend_from_slice(&message.what.to_be_bytes());
    out.extend_from_slice(&(message.fields.len() as u32).to_be_bytes());
    for field in &message.fields {
        out.extend_from_slice(&field.kind.letters());
        out.push(field.name.len() as u8);
        out.extend_from_slice(&field.name);
        out.push(field.values.len() as u8);
        for value in &field.values {
            put_value(out, value);
        }
    }
}

fn put_value(out: &mut Vec<u8>, value: &Value) {
    // The length is written over once the value stands, so that no length is computed again.
    let at = out.len();
    out.extend_from_slice(&[0, 0]);
    match value {
        Value::Bool(x) => out.push(u8::from(*x)),
        Value::Int8(x) => out.extend_from_slice(&x.to_be_bytes()),
        Value::Int16(x) => out.extend_from_slice(&x.to_be_bytes()),
        Value::Int32(x) => out.extend_from_slice(&x.to_be_bytes()),
        Value::Int64(x) => out.extend_from_slice(&x.to_be_bytes()),
        Value::UInt8(x) => out.push(*x),
        Value::UInt16(x) => out.extend_from_slice(&x.to_be_bytes()),
        Value::UInt32(x) => out.extend_from_slice(&x.to_be_bytes()),
        Value::UInt64(x) => out.extend_from_slice(&x.to_be_bytes()),
        Value::Text(x) => out.extend_from_slice(x.as_bytes()),
        Value::Message(x) => put_message(out, x),
        Value::Messenger(x) => put_address(out, x),
        Value::Raw(x) => out.extend_from_slice(x),
    }
    let len = (out.len() - at - 2) as u16;
    out[at..at + 2].copy_from_slice(&len.to_be_bytes());
}

fn put_address(out: &mut Vec<u8>, address: &Address) {
    out.extend_from_slice(&address.looper.to_be_bytes());
    let (kind, token) = match address.target {
        Target::Preferred => (0, 0),
        Target::Token(token) => (1, token),
    };
    out.push(kind);
    out.extend_from_slice(&token.to_be_bytes());
}

// Reading

#[derive(Clone, Copy, Debug, PartialEq, Eq)]
pub enum FlatKind {
    TooLong,
    Truncated,
    Magic,
    FieldCount,
    BadType,
    BadName,
    RepeatedName,
    NoValues,
    BadLength,
    BadValue,
    TooDeep,
    Trailing,
}

#[derive(Clone, Copy, Debug, PartialEq, Eq)]
pub struct FlatFault {
    pub place: u32,
    pub kind: FlatKind,
}

/// What is left of the input, or of the value that is read. `place` is that of its first byte in the input.
struct Reader<'a> {
    rest: &'a [u8],
    place: usize,
}

impl<'a> Reader<'a> {
    fn fault<T>(place: usize, kind: FlatKind) -> Result<T, FlatFault> {
        Err(FlatFault {
            place: place as u32,
            kind,
        })
    }

    fn take(&mut self, len: usize) -> Result<&'a [u8], FlatFault> {
        let Some((part, rest)) = self.rest.split_at_checked(len) else {
            return Self::fault(self.place, FlatKind::Truncated);
        };
        self.rest = rest;
        self.place += len;
        Ok(part)
    }

    fn array<const N: usize>(&mut self) -> Result<[u8; N], FlatFault> {
        let Some((part, rest)) = self.rest.split_first_chunk::<N>() else {
            return Self::fault(self.place, FlatKind::Truncated);
        };
        self.rest = rest;
        self.place += N;
        Ok(*part)
    }
}

pub fn unflatten(bytes: &[u8]) -> Result<Message, FlatFault> {
    if bytes.len() > FLAT_LIMIT {
        return Reader::fault(FLAT_LIMIT, FlatKind::TooLong);
    }
    read_message(
        Reader {
            rest: bytes,
            place: 0,
        },
        1,
    )
}

/// The message that fills the reader's bytes.
fn read_message(mut reader: Reader, depth: u32) -> Result<Message, FlatFault> {
    let place = reader.place;
    if &reader.array()? != MAGIC {
        return Reader::fault(place, FlatKind::Magic);
    }
    let what = u32::from_be_bytes(reader.array()?);
    let place = reader.place;
    let count = u32::from_be_bytes(reader.array()?);
    if count > FIELD_LIMIT {
        return Reader::fault(place, FlatKind::FieldCount);
    }
    let mut fields = Vec::with_capacity(count as usize);
    for _ in 0..count {
        let field = read_field(&mut reader, &fields, depth)?;
        fields.push(field);
    }
    if !reader.rest.is_empty() {
        return Reader::fault(reader.place, FlatKind::Trailing);
    }
    Ok(Message { what, fields })
}

fn read_field(reader: &mut Reader, earlier: &[Field], depth: u32) -> Result<Field, FlatFault> {
    let place = reader.place;
    let Some(kind) = Kind::from_letters(reader.array()?) else {
        return Reader::fault(place, FlatKind::BadType);
    };
    let name = read_name(reader, earlier)?;
    let place = reader.place;
    let [count] = reader.array()?;
    if count == 0 {
        return Reader::fault(place, FlatKind::NoValues);
    }
    let mut values = Vec::with_capacity(usize::from(count));
    for _ in 0..count {
        values.push(read_value(reader, kind, depth)?);
    }
    Ok(Field {
        name: name.to_vec(),
        kind,
        values,
    })
}

pub fn is_word_byte(b: u8) -> bool {
    b.is_ascii_alphanumeric() || matches!(b, b'_' | b'-' | b'.' | b':' | b'/')
}

fn read_name<'a>(reader: &mut Reader<'a>, earlier: &[Field]) -> Result<&'a [u8], FlatFault> {
    let place = reader.place;
    let [len] = reader.array()?;
    let len = usize::from(len);
    if len == 0 || len > NAME_LIMIT {
        return Reader::fault(place, FlatKind::BadName);
    }
    let place = reader.place;
    let name = reader.take(len)?;
    if !name.iter().all(|b| is_word_byte(*b)) {
        return Reader::fault(place, FlatKind::BadName);
    }
    if earlier.iter().any(|field| field.name == name) {
        return Reader::fault(place, FlatKind::RepeatedName);
    }
    Ok(name)
}

fn read_value(reader: &mut Reader, kind: Kind, depth: u32) -> Result<Value, FlatFault> {
    let place = reader.place;
    let len = usize::from(u16::from_be_bytes(reader.array()?));
    if !kind.allows(len) {
        return Reader::fault(place, FlatKind::BadLength);
    }
    let place = reader.place;
    let mut inner = Reader {
        rest: reader.take(len)?,
        place,
    };
    Ok(match kind {
        Kind::Bool => match inner.array()? {
            [0] => Value::Bool(false),
            [1] => Value::Bool(true),
            _ => return Reader::fault(place, FlatKind::BadValue),
        },
        Kind::Int8 => Value::Int8(i8::from_be_bytes(inner.array()?)),
        Kind::Int16 => Value::Int16(i16::from_be_bytes(inner.array()?)),
        Kind::Int32 => Value::Int32(i32::from_be_bytes(inner.array()?)),
        Kind::Int64 => Value::Int64(i64::from_be_bytes(inner.array()?)),
        Kind::UInt8 => Value::UInt8(u8::from_be_bytes(inner.array()?)),
        Kind::UInt16 => Value::UInt16(u16::from_be_bytes(inner.array()?)),
        Kind::UInt32 => Value::UInt32(u32::from_be_bytes(inner.array()?)),
        Kind::UInt64 => Value::UInt64(u64::from_be_bytes(inner.array()?)),
        Kind::Text => match std::str::from_utf8(inner.rest) {
            Ok(text) if !inner.rest.contains(&0) => Value::Text(text.to_owned()),
            _ => return Reader::fault(place, FlatKind::BadValue),
        },
        Kind::Message => {
            if depth >= DEPTH_LIMIT {
                return Reader::fault(place, FlatKind::TooDeep);
            }
            Value::Message(read_message(inner, depth + 1)?)
        }
        Kind::Messenger => {
            let looper = u32::from_be_bytes(inner.array()?);
            let target = match (inner.array()?, u64::from_be_bytes(inner.array()?)) {
                ([0], 0) => Target::Preferred,
                ([1], token) => Target::Token(token),
                _ => return Reader::fault(place, FlatKind::BadValue),
            };
            Value::Messenger(Address { looper, target })
        }
        Kind::Raw => Value::Raw(inner.rest.to_vec()),
    })
}

// The messages that are timed

fn ask() -> Message {
    let count = vec![Value::Text("Count".to_owned())];
    let specifier = Message::with(1, "property", Kind::Text, count);
    let specifiers = vec![Value::Message(specifier)];
    Message::with(u32::from_be_bytes(*b"PGET"), "specifiers", Kind::Message, specifiers)
}

fn reply() -> Message {
    let texts = [
        "The window of the first view was moved to the workspace that a script had named.",
        "The property is found by its name, and what stands there is a number of 32 bits.",
        "Of the replies that had been asked for the last came before its time had passed.",
    ];
    let texts = texts.iter().map(|text| Value::Text((*text).to_owned())).collect();
    let mut message = Message::with(u32::from_be_bytes(*b"RPLY"), "text", Kind::Text, texts);
    message.put("error", Kind::Int32, vec![Value::Int32(0)]);
    message
}

fn deep() -> Message {
    let what = u32::from_be_bytes(*b"NEST");
    let mut message = Message::with(what, "inner", Kind::Int32, vec![Value::Int32(16)]);
    for _ in 1..DEPTH_LIMIT {
        message = Message::with(what, "inner", Kind::Message, vec![Value::Message(message)]);
    }
    message
}

fn raw() -> Message {
    let longest: Vec<u8> = (0..BLOCK_LIMIT).map(|i| (i % 251) as u8).collect();
    let values = (0..3).map(|_| Value::Raw(longest.clone())).collect();
    Message::with(u32::from_be_bytes(*b"BLOB"), "data", Kind::Raw, values)
}

fn sample(name: &str) -> Option<Message> {
    match name {
        "ask" => Some(ask()),
        "reply" => Some(reply()),
        "deep" => Some(deep()),
        "raw" => Some(raw()),
        _ => None,
    }
}

fn round_sum(text: &[u8], read: &Message) -> u64 {
    let first = text.first().copied().unwrap_or(0);
    let last = text.last().copied().unwrap_or(0);
    (text.len() as u64)
        .wrapping_add(u64::from(first))
        .wrapping_add(u64::from(last))
        .wrapping_add(u64::from(read.what))
        .wrapping_add(read.fields.len() as u64)
}

/// The texts and what was read go through `black_box`, so that no part of the work is left out.
fn checksum(message: &Message, rounds: u32) -> u64 {
    let mut sum = 0u64;
    for _ in 0..rounds {
        let text = black_box(flatten(black_box(message)).expect("a text within the limit"));
        let read = black_box(unflatten(&text).expect("a flat text"));
        sum = sum.wrapping_add(round_sum(&text, &read));
    }
    sum
}

fn main() -> ExitCode {
    let words: Vec<String> = std::env::args().skip(1).collect();
    let words: Vec<&str> = words.iter().map(String::as_str).collect();
    match words[..] {
        ["flat", name, rounds] => {
            if let (Some(message), Ok(rounds @ 1..=ROUND_LIMIT)) = (sample(name), rounds.parse()) {
                println!("flat {name} {rounds} checksum {}", checksum(&message, rounds));
                return ExitCode::SUCCESS;
            }
        }
        ["length", name] => {
            if let Some(message) = sample(name) {
                println!("{}", flat_len(&message));
                return ExitCode::SUCCESS;
            }
        }
        _ => {}
    }
    println!("usage: flat flat ask|reply|deep|raw N");
    ExitCode::from(1)
}
