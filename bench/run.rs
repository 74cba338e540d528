//! Runs a script on looper threads in plain Rust, with nothing proved: what `bench/run` holds the program `kit` against.
//! It takes `run`, reads a script from standard input, and prints the lines that `kit` prints. Of scripts it knows those
//! that `bench/run` makes: applications of one looper with properties of the kind LONG, `launch` and `hey APP get NAME`.
//!
//! Its messages are those of `flat.rs`, its ports and slots those of `ports.rs`. Each object has its `Mutex` and the
//! history of what was done to it, each looper a thread. `gen.rs` takes its roster, its desks and its loopers from here.

#[allow(dead_code)]
#[path = "flat.rs"]
pub mod flat;
#[allow(dead_code)]
#[path = "ports.rs"]
pub mod ports;

use flat::{Field, Kind, Message, Target, Value, flatten, unflatten};
use ports::{Clock, Duty, Entry, Item, LIFE_LIMIT, Port, Replies, TakeAnswer, Taken, locked};
use std::collections::VecDeque;
use std::fmt::Write as _;
use std::io::{self, Read, Write};
use std::process::ExitCode;
use std::sync::{Arc, Mutex};
use std::thread::{self, JoinHandle};

const INPUT_LIMIT: u64 = 1_048_576;
const STATEMENT_LIMIT: usize = 8_000;
const PROPERTY_LIMIT: usize = 64;
pub const CAPACITY: usize = 100;
const FIRST_LOOPER_THREAD: u32 = 10_000;

pub const GET: u32 = u32::from_be_bytes(*b"PGET");
pub const REPLY: u32 = u32::from_be_bytes(*b"RPLY");
const NOT_UNDERSTOOD: u32 = u32::from_be_bytes(*b"MNOT");
const NO_REPLY: u32 = u32::from_be_bytes(*b"NONE");
const READY_TO_RUN: u32 = u32::from_be_bytes(*b"_RTR");
pub const DIRECT: u32 = 1;

// ---- the script
#[derive(Clone)]
pub struct Row {
    pub name: String,
    pub elements: Vec<i32>,
}

/// An application, and its own looper: the capacity of that one's port, and its properties.
pub struct App {
    pub path: String,
    pub signature: String,
    pub capacity: usize,
    pub rows: Vec<Row>,
}

enum Statement {
    Launch(String),
    Hey(String, Message),
}

#[derive(Default)]
struct Script {
    apps: Vec<App>,
    statements: Vec<Statement>,
    begun: bool,
    runs: bool,
}

enum Refusal {
    NotUtf8,
    BadWord,
    UnknownLine,
    BadValue,
    BadHey(usize),
    Limit,
}

impl Refusal {
    fn text(&self) -> String {
        match self {
            Refusal::NotUtf8 => "not UTF-8".to_owned(),
            Refusal::BadWord => "bad word".to_owned(),
            Refusal::UnknownLine => "unknown line".to_owned(),
            Refusal::BadValue => "bad value".to_owned(),
            Refusal::BadHey(column) => format!("bad hey at column {column}"),
            Refusal::Limit => "limit".to_owned(),
        }
    }
}

struct Word<'a> {
    text: &'a str,
    column: usize,
}

/// The words of a line, which end at blanks outside of quotes, braces and brackets.
fn words_of(line: &str) -> Result<Vec<Word<'_>>, Refusal> {
    let mut words = Vec::new();
    let (mut begin, mut quote, mut braces, mut brackets) = (None, None, 0u32, 0u32);
    let mut escaped = false;
    for (at, byte) in line.bytes().enumerate() {
        let inside = quote.is_some() || braces > 0 || brackets > 0;
        if let (Some(start), false) = (begin, inside) {
            if matches!(byte, b' ' | b'\t' | b'[') {
                words.push(Word {
                    text: &line[start..at],
                    column: start + 1,
                });
                begin = None;
            }
        }
        if begin.is_none() && !matches!(byte, b' ' | b'\t') {
            begin = Some(at);
        }
        match (quote, byte) {
            _ if escaped => escaped = false,
            (Some(b'"'), b'\\') => escaped = true,
            (Some(open), _) if open == byte => quote = None,
            (Some(_), _) => {}
            (None, b'"' | b'\'') => quote = Some(byte),
            (None, b'{') => braces += 1,
            (None, b'}') => braces = braces.saturating_sub(1),
            (None, b'[') => brackets += 1,
            (None, b']') => brackets = brackets.saturating_sub(1),
            _ => {}
        }
    }
    if quote.is_some() || braces > 0 || brackets > 0 {
        return Err(Refusal::BadWord);
    }
    if let Some(start) = begin {
        words.push(Word {
            text: &line[start..],
            column: start + 1,
        });
    }
    Ok(words)
}

fn is_word(text: &str) -> bool {
    (1..=64).contains(&text.len()) && text.bytes().all(flat::is_word_byte)
}

fn number_of(text: &str) -> Option<i32> {
    let text = text.strip_prefix("LONG:").unwrap_or(text);
    let number: i32 = text.parse().ok()?;
    (number.to_string() == text).then_some(number)
}

fn hey_of(words: &[Word]) -> Result<Statement, Refusal> {
    let fault = |word: &Word| Err(Refusal::BadHey(word.column));
    match words {
        [app, ..] if !is_word(app.text) => fault(app),
        [_, verb, ..] if verb.text != "get" => fault(verb),
        [_, _, property, ..] if !is_word(property.text) => fault(property),
        [_, _, _, more, ..] => fault(more),
        [app, _, property] => {
            let name = vec![Value::Text(property.text.to_owned())];
            let specifier = Message::with(DIRECT, "property", Kind::Text, name);
            let specifiers = vec![Value::Message(specifier)];
            let message = Message::with(GET, "specifiers", Kind::Message, specifiers);
            Ok(Statement::Hey(app.text.to_owned(), message))
        }
        _ => Err(Refusal::BadHey(words.last().map_or(5, |it| it.column))),
    }
}

impl Script {
    fn put_statement(&mut self, statement: Statement) -> Result<(), Refusal> {
        if self.statements.len() == STATEMENT_LIMIT {
            return Err(Refusal::Limit);
        }
        self.statements.push(statement);
        Ok(())
    }

    fn put_app(&mut self, words: &[Word]) -> Result<(), Refusal> {
        match words {
            [path, signature, _mode] if path.text.starts_with('/') => {
                self.apps.push(App {
                    path: path.text.to_owned(),
                    signature: signature.text.to_owned(),
                    capacity: CAPACITY,
                    rows: Vec::new(),
                });
                Ok(())
            }
            _ => Err(Refusal::BadValue),
        }
    }

    fn put_part(&mut self, key: &str, words: &[Word]) -> Result<(), Refusal> {
        let app = self.apps.last_mut().ok_or(Refusal::UnknownLine)?;
        match (key, words) {
            ("looper", [name]) if is_word(name.text) => {}
            ("property", [name, kind]) if is_word(name.text) && kind.text == "LONG" => {
                if app.rows.len() == PROPERTY_LIMIT {
                    return Err(Refusal::Limit);
                }
                app.rows.push(Row {
                    name: name.text.to_owned(),
                    elements: Vec::new(),
                });
            }
            ("element", [value]) => {
                let row = app.rows.last_mut().ok_or(Refusal::UnknownLine)?;
                let number = number_of(value.text).ok_or(Refusal::BadValue)?;
                row.elements.push(number);
            }
            _ => return Err(Refusal::BadValue),
        }
        Ok(())
    }

    fn read_line(&mut self, line: &[u8]) -> Result<(), Refusal> {
        let line = std::str::from_utf8(line).map_err(|_| Refusal::NotUtf8)?;
        let words = words_of(line)?;
        let Some((first, rest)) = words.split_first() else {
            return Ok(());
        };
        match (first.text, self.begun, self.runs) {
            ("kit", false, _) if rest.len() == 1 && rest[0].text == "1" => self.begun = true,
            ("app", true, false) => self.put_app(rest)?,
            (key @ ("looper" | "property" | "element"), true, false) => self.put_part(key, rest)?,
            ("script", true, false) if rest.is_empty() => self.runs = true,
            ("hey", _, true) => self.put_statement(hey_of(rest)?)?,
            ("launch", _, true) => match rest {
                [path] if path.text.starts_with('/') => {
                    self.put_statement(Statement::Launch(path.text.to_owned()))?
                }
                _ => return Err(Refusal::BadValue),
            },
            _ => return Err(Refusal::UnknownLine),
        }
        Ok(())
    }
}

/// The script, or the number of the first line with a fault, and the fault.
fn read_script(input: &[u8]) -> Result<Script, (usize, Refusal)> {
    let mut script = Script::default();
    for (place, line) in input.split(|byte| *byte == b'\n').enumerate() {
        let says = line.iter().find(|byte| !matches!(byte, b' ' | b'\t'));
        if !matches!(says, None | Some(b'#')) {
            script.read_line(line).map_err(|fault| (place + 1, fault))?;
        }
    }
    Ok(script)
}

// ---- the roster
struct Team {
    number: u32,
    app: usize,
    looper: usize,
}

#[allow(dead_code)]
pub enum RosterEvent {
    Launch(String, Option<u32>),
    Find(String, Option<u32>),
    Gone(u32),
    Door(usize),
}

#[derive(Default)]
pub struct Roster {
    entries: Vec<Entry<RosterEvent>>,
    teams: Vec<Team>,
}

fn fits(app: &App, word: &str) -> bool {
    app.path == word || app.signature == word || app.path.rsplit('/').next() == Some(word)
}

impl Roster {
    pub fn enter(&mut self, clock: &mut Clock, event: RosterEvent) {
        self.entries.push(clock.entry(&self.entries, event));
    }

    /// Enters that the application was started, with that first looper, and answers the team's number.
    pub fn start(&mut self, clock: &mut Clock, path: &str, app: usize, looper: usize) -> u32 {
        let number = self.teams.len() as u32 + 1;
        self.enter(clock, RosterEvent::Launch(path.to_owned(), Some(number)));
        self.teams.push(Team {
            number,
            app,
            looper,
        });
        number
    }

    /// The looper of the running team that the word fits.
    fn find(&mut self, clock: &mut Clock, apps: &[App], word: &str) -> Option<usize> {
        let team = self.teams.iter().find(|team| fits(&apps[team.app], word));
        let found = team.map(|team| (team.number, team.looper));
        let number = found.map(|it| it.0);
        self.enter(clock, RosterEvent::Find(word.to_owned(), number));
        found.map(|it| it.1)
    }
}

// ---- a desk
#[allow(dead_code)]
pub enum Route {
    To(u64),
    NotUnderstood,
    Forward(usize),
}

#[allow(dead_code)]
pub struct Dispatched {
    position: u64,
    route: Route,
    answers: Vec<u32>,
    quit: bool,
}

pub struct Desk {
    pub rows: Vec<Row>,
    entries: Vec<Entry<Dispatched>>,
}

/// The one value of a field of that name and kind.
pub fn first<'a>(message: &'a Message, name: &[u8], kind: Kind) -> Option<&'a Value> {
    let field = message.fields.iter().find(|field| field.name == name)?;
    (field.kind == kind).then(|| field.values.first())?
}

/// The current specifier, the last of those that are left, and how many are left.
pub fn current_of(message: &Message, popped: u32) -> Option<(&Message, usize)> {
    let field = message.fields.iter().find(|field| field.name == b"specifiers")?;
    let left = field.values.len().checked_sub(popped as usize)?;
    match field.values.get(left.checked_sub(1)?)? {
        Value::Message(current) => Some((current, left)),
        _ => None,
    }
}

/// The property that the current specifier names, where it is a direct one and no other is left.
fn property_of(message: &Message, popped: u32) -> Option<&str> {
    let (current, left) = current_of(message, popped)?;
    match first(current, b"property", Kind::Text)? {
        Value::Text(name) if current.what == DIRECT && left == 1 => Some(name),
        _ => None,
    }
}

fn reply_of(row: &Row) -> Message {
    let values = row.elements.iter().map(|number| Value::Int32(*number)).collect();
    let mut reply = Message::with(REPLY, "result", Kind::Int32, values);
    reply.put("error", Kind::Int32, vec![Value::Int32(0)]);
    reply
}

fn plain(what: u32) -> Message {
    Message {
        what,
        fields: Vec::new(),
    }
}

impl Desk {
    /// Where the message goes, and its reply.
    pub fn answer(&self, message: &Message, popped: u32) -> (Route, Message) {
        if message.what == READY_TO_RUN {
            return (Route::To(0), plain(NO_REPLY));
        }
        let row = property_of(message, popped)
            .and_then(|name| self.rows.iter().find(|row| row.name == name));
        match row {
            Some(row) if message.what == GET => (Route::To(0), reply_of(row)),
            _ => (Route::NotUnderstood, plain(NOT_UNDERSTOOD)),
        }
    }

    fn dispatch(&mut self, clock: &mut Clock, position: u64, item: &Item) -> Message {
        let message = unflatten(&item.flat).expect("what was written is a flat text");
        let (route, reply) = self.answer(&message, item.popped);
        self.enter(clock, position, route, Vec::new());
        reply
    }

    pub fn enter(&mut self, clock: &mut Clock, position: u64, route: Route, answers: Vec<u32>) {
        let event = Dispatched {
            position,
            route,
            answers,
            quit: false,
        };
        self.entries.push(clock.entry(&self.entries, event));
    }
}

// ---- loopers
pub struct Looper {
    pub port: Port,
    pub desk: Mutex<Desk>,
    replies: Arc<Replies>,
}

impl Looper {
    pub fn new(
        capacity: usize,
        rows: Vec<Row>,
        replies: &Arc<Replies>,
        clock: &mut Clock,
    ) -> Looper {
        Looper {
            port: Port::new(capacity, LIFE_LIMIT, clock),
            desk: Mutex::new(Desk {
                rows,
                entries: Vec::new(),
            }),
            replies: Arc::clone(replies),
        }
    }

    /// Writes that the application is ready to run.
    pub fn get_ready(&self, clock: &mut Clock) {
        let ready = Item::new(&flat_of(&plain(READY_TO_RUN)), Duty::None);
        self.port.write(clock, ready);
    }

    /// Dispatches what was taken, and answers its reply.
    fn dispatch(&self, clock: &mut Clock, taken: &Taken) -> Option<Message> {
        Some(locked(&self.desk).dispatch(clock, taken.position, &taken.item))
    }
}

fn flat_of(message: &Message) -> Vec<u8> {
    flatten(message).expect("the text is short")
}

/// Takes and dispatches one item after the other, until the port is shut. There is no reply where the message was sent on.
pub fn live(
    looper: &Looper,
    thread: u32,
    dispatch: impl Fn(&mut Clock, &Taken) -> Option<Message>,
) {
    let mut clock = Clock { thread, time: 0 };
    let mut taken = VecDeque::with_capacity(CAPACITY);
    while let TakeAnswer::Took = looper.port.take(&mut clock, &mut taken, 1) {
        let Some(next) = taken.pop_front() else {
            continue;
        };
        let reply = dispatch(&mut clock, &next);
        if let (Some(reply), Duty::Slot(slot)) = (reply, next.item.duty) {
            looper.replies.fill(&mut clock, slot, flat_of(&reply));
        }
    }
    for left in taken {
        if let Duty::Slot(slot) = left.item.duty {
            looper.replies.fill(&mut clock, slot, flat_of(&plain(NO_REPLY)));
        }
    }
}

// ---- texts
fn put_code(out: &mut String, what: u32) {
    let bytes = what.to_be_bytes();
    let shown = bytes.iter().all(|byte| (0x20..=0x7E).contains(byte) && !matches!(byte, b'\'' | b'\\'));
    if shown {
        out.push('\'');
        out.extend(bytes.iter().map(|byte| char::from(*byte)));
        out.push('\'');
    } else {
        let _ = write!(out, "0x{what:08x}");
    }
}

fn put_quoted(out: &mut String, text: &str) {
    out.push('"');
    for letter in text.chars() {
        match letter {
            '"' | '\\' => out.extend(['\\', letter]),
            '\x01'..='\x1f' | '\x7f' => {
                let _ = write!(out, "\\x{:02x}", letter as u32);
            }
            _ => out.push(letter),
        }
    }
    out.push('"');
}

fn put_value(out: &mut String, value: &Value) {
    let _ = match value {
        Value::Bool(it) => write!(out, "{it}"),
        Value::Int8(it) => write!(out, "{it}"),
        Value::Int16(it) => write!(out, "{it}"),
        Value::Int32(it) => write!(out, "{it}"),
        Value::Int64(it) => write!(out, "{it}"),
        Value::UInt8(it) => write!(out, "{it}"),
        Value::UInt16(it) => write!(out, "{it}"),
        Value::UInt32(it) => write!(out, "{it}"),
        Value::UInt64(it) => write!(out, "{it}"),
        Value::Text(it) => {
            put_quoted(out, it);
            Ok(())
        }
        Value::Message(it) => {
            out.push('{');
            put_message(out, it);
            out.push('}');
            Ok(())
        }
        Value::Messenger(it) => match it.target {
            Target::Preferred => write!(out, "{}.p", it.looper),
            Target::Token(token) => write!(out, "{}.{token}", it.looper),
        },
        Value::Raw(it) => it.iter().try_for_each(|byte| write!(out, "{byte:02x}")),
    };
}

fn put_field(out: &mut String, field: &Field) {
    out.push(' ');
    out.extend(field.name.iter().map(|byte| char::from(*byte)));
    for (place, value) in field.values.iter().enumerate() {
        out.push(if place == 0 { '=' } else { ',' });
        out.extend(field.kind.letters().map(char::from));
        out.push(':');
        put_value(out, value);
    }
}

fn put_message(out: &mut String, message: &Message) {
    put_code(out, message.what);
    for field in &message.fields {
        put_field(out, field);
    }
}

// ---- a run
#[allow(dead_code)]
pub enum Outcome {
    Launched { place: usize },
    Replied { slot: usize },
    NoTeam { place: usize },
}

/// What main reaches, and whoever else asks.
pub struct World {
    apps: Vec<App>,
    pub roster: Mutex<Roster>,
    pub replies: Arc<Replies>,
    pub loopers: Vec<Arc<Looper>>,
}

impl World {
    /// Asks the own looper of the application that runs, and answers what came of it, and its reply.
    pub fn ask(
        &self,
        clock: &mut Clock,
        word: &str,
        message: &Message,
    ) -> (Outcome, Option<Message>) {
        let mut roster = locked(&self.roster);
        let place = roster.entries.len();
        let Some(looper) = roster.find(clock, &self.apps, word) else {
            return (Outcome::NoTeam { place }, None);
        };
        drop(roster);
        let flat = flat_of(message);
        let slot = self.replies.open(clock);
        let item = Item::new(&flat, Duty::Slot(slot));
        if self.loopers[looper].port.write(clock, item).is_none() {
            unreachable!("main alone shuts the port, at the end");
        }
        let flat = self.replies.wait_for(clock, slot);
        let reply = unflatten(&flat).expect("what was filled in is a flat text");
        (Outcome::Replied { slot }, Some(reply))
    }
}

pub struct Run {
    pub world: World,
    threads: Vec<JoinHandle<()>>,
    outcomes: Vec<Outcome>,
    pub clock: Clock,
}

impl Run {
    pub fn new(apps: Vec<App>, replies: Replies) -> Run {
        Run {
            world: World {
                apps,
                roster: Mutex::default(),
                replies: Arc::new(replies),
                loopers: Vec::new(),
            },
            threads: Vec::new(),
            outcomes: Vec::new(),
            clock: Clock { thread: 0, time: 0 },
        }
    }

    /// Starts the thread of the next looper.
    pub fn start(
        &mut self,
        looper: Arc<Looper>,
        dispatch: impl Fn(&mut Clock, &Taken) -> Option<Message> + Send + 'static,
    ) {
        let thread = FIRST_LOOPER_THREAD + self.threads.len() as u32;
        self.threads.push(thread::spawn(move || live(&looper, thread, dispatch)));
    }

    /// Launches the application, and answers its line.
    fn launch(&mut self, path: &str) -> String {
        let mut roster = locked(&self.world.roster);
        let place = roster.entries.len();
        self.outcomes.push(Outcome::Launched { place });
        let Some(app) = self.world.apps.iter().position(|app| app.path == path) else {
            roster.enter(&mut self.clock, RosterEvent::Launch(path.to_owned(), None));
            return "launch B_LAUNCH_FAILED_APP_NOT_FOUND\n".to_owned();
        };
        if let Some(team) = roster.teams.iter().find(|team| team.app == app) {
            let number = team.number;
            roster.enter(&mut self.clock, RosterEvent::Launch(path.to_owned(), None));
            return format!("launch B_ALREADY_RUNNING team {number}\n");
        }
        let App { capacity, rows, .. } = &self.world.apps[app];
        let looper = Looper::new(*capacity, rows.clone(), &self.world.replies, &mut self.clock);
        looper.get_ready(&mut self.clock);
        let number = roster.start(&mut self.clock, path, app, self.world.loopers.len());
        drop(roster);
        let looper = Arc::new(looper);
        self.world.loopers.push(Arc::clone(&looper));
        let at_work = Arc::clone(&looper);
        self.start(looper, move |clock, taken| at_work.dispatch(clock, taken));
        format!("launch team {number}\n")
    }

    /// Asks the application's looper, and answers the line of its reply.
    fn hey(&mut self, word: &str, message: &Message) -> String {
        let (outcome, reply) = self.world.ask(&mut self.clock, word, message);
        self.outcomes.push(outcome);
        let Some(reply) = reply else {
            return "no such application\n".to_owned();
        };
        let mut line = "reply ".to_owned();
        put_message(&mut line, &reply);
        line.push('\n');
        line
    }

    pub fn end(mut self) -> Run {
        let mut roster = locked(&self.world.roster);
        for number in roster.teams.iter().map(|team| team.number).collect::<Vec<_>>() {
            roster.enter(&mut self.clock, RosterEvent::Gone(number));
        }
        drop(roster);
        for looper in &self.world.loopers {
            looper.port.close(&mut self.clock);
        }
        for thread in self.threads.drain(..) {
            thread.join().expect("a looper has not failed");
        }
        self
    }
}

/// Carries the script out. Each line is written before the next statement is carried out.
fn run_script(script: Script, out: &mut impl Write) -> io::Result<()> {
    let Script {
        apps, statements, ..
    } = script;
    let mut run = Run::new(apps, Replies::new());
    run.outcomes.reserve(statements.len());
    for statement in &statements {
        let line = match statement {
            Statement::Launch(path) => run.launch(path),
            Statement::Hey(word, message) => run.hey(word, message),
        };
        out.write_all(line.as_bytes())?;
        out.flush()?;
    }
    drop(run.end());
    Ok(())
}

fn status_of(input: &[u8], out: &mut impl Write) -> io::Result<u8> {
    match read_script(input) {
        Ok(script) => {
            run_script(script, out)?;
            Ok(0)
        }
        Err((line, fault)) => {
            writeln!(out, "refused line {line}: {}", fault.text())?;
            Ok(2)
        }
    }
}

fn main() -> ExitCode {
    let words: Vec<String> = std::env::args().skip(1).collect();
    if words != ["run"] {
        println!("usage: run run");
        return ExitCode::from(1);
    }
    let mut input = Vec::new();
    if io::stdin().take(INPUT_LIMIT + 1).read_to_end(&mut input).is_err() {
        return ExitCode::from(3);
    }
    match status_of(&input, &mut io::stdout().lock()) {
        Ok(status) => ExitCode::from(status),
        Err(_) => ExitCode::from(4),
    }
}
