//! Carries out, in plain Rust with nothing proved, the script that is made of a number: what `bench/gen` holds the program
//! `kit` against. `gen N` prints the line that `kit gen N` prints. It makes the script itself, so that nothing is read.
//!
//! The team has an own looper, `work`, and three that count. Four sessions tell these to count, side by side; each message
//! comes to `work`, which sends it on. Then main asks each of the three how far it has counted.
//!
//! Its roster, its desks and its loopers are those of `run.rs`, with the messages of `flat.rs` and the ports and slots of
//! `ports.rs`. Each object has its `Mutex` and the history of what was done to it. A port wakes one writer for each item
//! that it gives out, and each reply slot has a `Condvar` of its own.

#[allow(dead_code)]
#[path = "run.rs"]
mod run;

use run::flat::{Kind, Message, Value, unflatten};
use run::ports::{Clock, Replies, Taken, locked};
use run::{
    App, CAPACITY, DIRECT, Desk, GET, Looper, Outcome, REPLY, RosterEvent, Route, Row, Run, World,
    current_of, first,
};
use std::process::ExitCode;
use std::sync::Arc;
use std::thread;

const NUMBER_LIMIT: usize = 500;
const SESSIONS: usize = 4;
const COUNTING: usize = 3;
const OWN_CAPACITY: usize = 2;
const PATH: &str = "/gen/work";
const SIGNATURE: &str = "application/x-vnd.gen";
const WORD: &str = "work";

const INCR: u32 = u32::from_be_bytes(*b"incr");
const INDEX: u32 = 2;
const OK: u32 = 0;

// ---- the script
/// The message to the looper at that place, which is its last specifier.
fn to_looper(what: u32, mut specifiers: Vec<Value>, place: usize) -> Message {
    let looper = vec![Value::Text("Looper".to_owned())];
    let mut specifier = Message::with(INDEX, "property", Kind::Text, looper);
    specifier.put("index", Kind::Int32, vec![Value::Int32(place as i32)]);
    specifiers.push(Value::Message(specifier));
    Message::with(what, "specifiers", Kind::Message, specifiers)
}

/// `hey work 'incr' of Looper [PLACE]`
fn incr(place: usize) -> Message {
    to_looper(INCR, Vec::new(), place)
}

/// `hey work get Count of Looper [PLACE]`
fn get_count(place: usize) -> Message {
    let count = vec![Value::Text("Count".to_owned())];
    let property = Message::with(DIRECT, "property", Kind::Text, count);
    to_looper(GET, vec![Value::Message(property)], place)
}

fn session(number: usize, each: usize) -> Vec<Message> {
    (1..=each).map(|line| incr(1 + (number + line) % COUNTING)).collect()
}

fn app() -> App {
    App {
        path: PATH.to_owned(),
        signature: SIGNATURE.to_owned(),
        capacity: OWN_CAPACITY,
        rows: Vec::new(),
    }
}

// ---- loopers
/// The looper to which the current specifier leads, by its place in the team.
fn place_of(message: &Message, popped: u32) -> Option<usize> {
    let (current, _) = current_of(message, popped)?;
    match first(current, b"property", Kind::Text)? {
        Value::Text(name) if name == "Looper" && current.what == INDEX => {}
        _ => return None,
    }
    match first(current, b"index", Kind::Int32)? {
        Value::Int32(index) => usize::try_from(*index).ok(),
        _ => None,
    }
}

/// Sends the item on to that looper, with the specifier popped that led there. It waits for room.
fn forward(to: &Looper, clock: &mut Clock, taken: &Taken) {
    let mut item = taken.item.clone();
    item.popped += 1;
    if to.port.write(clock, item).is_none() {
        unreachable!("main alone shuts the port, at the end");
    }
}

/// Adds 1 to the first property, and answers the reply.
fn count_up(desk: &mut Desk) -> Message {
    if let Some(count) = desk.rows.first_mut().and_then(|row| row.elements.first_mut()) {
        *count += 1;
    }
    Message::with(REPLY, "error", Kind::Int32, vec![Value::Int32(0)])
}

/// What the own looper does in one turn of its desk: it sends on what is for one of the others.
fn dispatch_own(
    looper: &Looper,
    team: &[Arc<Looper>],
    clock: &mut Clock,
    taken: &Taken,
) -> Option<Message> {
    let mut desk = locked(&looper.desk);
    let (position, popped) = (taken.position, taken.item.popped);
    let message = unflatten(&taken.item.flat).expect("what was written is a flat text");
    if let Some(place) = place_of(&message, popped) {
        // The own looper has the place 0, and no message leads there.
        forward(&team[place - 1], clock, taken);
        desk.enter(clock, position, Route::Forward(place), vec![OK]);
        return None;
    }
    let (route, reply) = desk.answer(&message, popped);
    desk.enter(clock, position, route, Vec::new());
    Some(reply)
}

/// What a looper that counts does in one turn of its desk.
fn dispatch_count(looper: &Looper, clock: &mut Clock, taken: &Taken) -> Option<Message> {
    let mut desk = locked(&looper.desk);
    let (position, popped) = (taken.position, taken.item.popped);
    let message = unflatten(&taken.item.flat).expect("what was written is a flat text");
    if message.what == INCR && current_of(&message, popped).is_none() {
        let reply = count_up(&mut desk);
        desk.enter(clock, position, Route::To(0), vec![OK, OK]);
        return Some(reply);
    }
    let (route, reply) = desk.answer(&message, popped);
    desk.enter(clock, position, route, Vec::new());
    Some(reply)
}

fn count_row() -> Row {
    Row {
        name: "Count".to_owned(),
        elements: vec![0],
    }
}

/// Launches the application: its loopers are made and entered in one turn of the roster, and then their threads started.
fn launch(run: &mut Run) {
    let Run { world, clock, .. } = &mut *run;
    let mut roster = locked(&world.roster);
    let own = Arc::new(Looper::new(OWN_CAPACITY, Vec::new(), &world.replies, clock));
    own.get_ready(clock);
    let team: Vec<_> = (0..COUNTING)
        .map(|_| Arc::new(Looper::new(CAPACITY, vec![count_row()], &world.replies, clock)))
        .collect();
    roster.start(clock, PATH, 0, 0);
    drop(roster);
    world.loopers.push(Arc::clone(&own));
    world.loopers.extend(team.iter().cloned());
    let others = team.clone();
    run.start(Arc::clone(&own), move |clock, taken| dispatch_own(&own, &others, clock, taken));
    for looper in team {
        let at_work = Arc::clone(&looper);
        run.start(looper, move |clock, taken| dispatch_count(&at_work, clock, taken));
    }
}

// ---- sessions
/// What a session came to, line by line.
#[allow(dead_code)]
struct Heard {
    outcomes: Vec<Outcome>,
    replies: Vec<Message>,
}

/// Carries out the lines, one after the other, as the session with that number.
fn carry_out(world: &World, number: usize, lines: &[Message]) -> Heard {
    let mut clock = Clock::new(number as u32);
    let mut heard = Heard {
        outcomes: Vec::with_capacity(lines.len()),
        replies: Vec::with_capacity(lines.len()),
    };
    locked(&world.roster).enter(&mut clock, RosterEvent::Door(0));
    for line in lines {
        let (outcome, reply) = world.ask(&mut clock, WORD, line);
        heard.outcomes.push(outcome);
        heard.replies.extend(reply);
    }
    heard
}

/// Carries out the sessions, each by a thread of its own, and waits for all.
fn together(world: &World, sessions: &[Vec<Message>]) -> Vec<Heard> {
    thread::scope(|scope| {
        let threads: Vec<_> = (1..)
            .zip(sessions)
            .map(|(number, lines)| scope.spawn(move || carry_out(world, number, lines)))
            .collect();
        let heard = threads.into_iter().map(|it| it.join().expect("no session has failed"));
        heard.collect()
    })
}

/// The first result of the reply, where it has one.
fn result_of(reply: &Message) -> Option<i32> {
    match first(reply, b"result", Kind::Int32)? {
        Value::Int32(number) => Some(*number),
        _ => None,
    }
}

/// Carries the script out, and answers the line that tells of it.
fn line_of(number: usize) -> Option<String> {
    let sessions: Vec<_> = (1..=SESSIONS).map(|it| session(it, number)).collect();
    let questions: Vec<_> = (1..=COUNTING).map(get_count).collect();
    let slots = SESSIONS * number + COUNTING;
    let mut run = Run::new(vec![app()], Replies::with_conditions(slots));
    launch(&mut run);
    let heard = together(&run.world, &sessions);
    let told = heard.iter().flat_map(|it| &it.replies);
    let replies = told.filter(|reply| reply.what == REPLY).count();
    let mut line = format!("gen {number}: replies {replies} counts");
    for question in &questions {
        let (_, reply) = run.world.ask(&mut run.clock, WORD, question);
        line.push_str(&format!(" {}", result_of(&reply?)?));
    }
    drop(run.end());
    Some(line)
}

fn main() -> ExitCode {
    let words: Vec<String> = std::env::args().skip(1).collect();
    let number = match &words[..] {
        [name, number] if name == "gen" => number.parse().ok(),
        _ => None,
    };
    let Some(number) = number.filter(|it| (1..=NUMBER_LIMIT).contains(it)) else {
        println!("usage: gen gen N");
        return ExitCode::from(1);
    };
    match line_of(number) {
        Some(line) => {
            println!("{line}");
            ExitCode::SUCCESS
        }
        None => ExitCode::from(1),
    }
}
