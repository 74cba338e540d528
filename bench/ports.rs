//! The same port and reply slots in plain Rust, with nothing proved: what `bench/ports` holds the proved ones against.
//! Each is a `Mutex` and `Condvar`s of std round a bounded queue or a list of slots, and each keeps the history of what
//! was done to it, with a copy of the bytes. `port CAPACITY WRITERS N` and `ask N` print the lines of `kit_bench`. `run.rs`
//! and `gen.rs` take their ports and their slots from here.

use std::collections::VecDeque;
use std::mem;
use std::process::ExitCode;
use std::sync::{Condvar, Mutex, MutexGuard};
use std::thread;

const CAPACITY_LIMIT: usize = 1000;
pub const LIFE_LIMIT: usize = 8192;
const THREAD_LIMIT: usize = 8;
const ROUND_LIMIT: usize = 10_000_000;

/// How many items the port of questions holds at a time.
const ASK_CAPACITY: usize = 100;

const TAKER: u32 = 0;
const CLOSER: u32 = 1;
const FIRST_WRITER: u32 = 2;

/// The flat text of a question with one specifier, and of a reply with an error number, part by part.
const QUESTION: &[u8] = b"AKM1PGET\0\0\0\x01MSGG\x0aspecifiers\x01\0\x21AKM1\0\0\0\x01\0\0\0\x01CSTR\x08property\x01\0\x05Count";
const REPLY: &[u8] = b"AKM1RPLY\0\0\0\x01LONG\x05error\x01\0\x04\0\0\0\0";

#[derive(Clone, Copy)]
pub enum Target {
    Preferred,
}

#[derive(Clone, Copy)]
pub enum Duty {
    None,
    Slot(usize),
}

#[derive(Clone)]
#[allow(dead_code)]
pub struct Item {
    pub target: Target,
    pub team: u32,
    pub dropped: bool,
    pub duty: Duty,
    pub popped: u32,
    pub flat: Vec<u8>,
}

impl Item {
    pub fn new(flat: &[u8], duty: Duty) -> Item {
        Item {
            target: Target::Preferred,
            team: 0,
            dropped: false,
            duty,
            popped: 0,
            flat: flat.to_vec(),
        }
    }
}

#[allow(dead_code)]
pub struct Taken {
    pub position: u64,
    pub item: Item,
}

/// The clock of a thread: each stamp is greater than its earlier ones and than the list's last one.
pub struct Clock {
    pub thread: u32,
    pub time: u64,
}

impl Clock {
    pub fn new(thread: u32) -> Clock {
        Clock { thread, time: 0 }
    }

    pub fn entry<E>(&mut self, entries: &[Entry<E>], event: E) -> Entry<E> {
        let last = entries.last().map_or(0, |entry| entry.stamp);
        self.time = 1 + self.time.max(last);
        Entry {
            stamp: self.time,
            by: self.thread,
            event,
        }
    }
}

#[allow(dead_code)]
pub struct Entry<E> {
    pub stamp: u64,
    pub by: u32,
    pub event: E,
}

#[allow(dead_code)]
enum PortEvent {
    Made { capacity: usize, life: usize },
    Written { position: u64, item: Item },
    Refused,
    Spent,
    Took(usize),
    Rest(usize),
    Shut,
}

struct PortBook {
    entries: Vec<Entry<PortEvent>>,
    pending: VecDeque<Item>,
    written: u64,
    shut: bool,
}

pub struct Port {
    capacity: usize,
    life: usize,
    book: Mutex<PortBook>,
    room: Condvar,
    items: Condvar,
}

pub enum TakeAnswer {
    Took,
    Rest,
}

pub fn locked<T>(mutex: &Mutex<T>) -> MutexGuard<'_, T> {
    mutex.lock().expect("no thread has failed")
}

pub fn waited<'a, T>(condvar: &Condvar, guard: MutexGuard<'a, T>) -> MutexGuard<'a, T> {
    condvar.wait(guard).expect("no thread has failed")
}

impl Port {
    pub fn new(capacity: usize, life: usize, clock: &mut Clock) -> Port {
        let made = clock.entry(&[], PortEvent::Made { capacity, life });
        Port {
            capacity,
            life,
            book: Mutex::new(PortBook {
                entries: vec![made],
                pending: VecDeque::with_capacity(capacity),
                written: 0,
                shut: false,
            }),
            room: Condvar::new(),
            items: Condvar::new(),
        }
    }

    /// The position where it was written. `None` where it is refused.
    pub fn write(&self, clock: &mut Clock, item: Item) -> Option<u64> {
        let mut guard = locked(&self.book);
        while !guard.shut
            && guard.written < self.life as u64
            && guard.pending.len() == self.capacity
        {
            guard = waited(&self.room, guard);
        }
        let book = &mut *guard;
        if book.shut || book.written == self.life as u64 {
            let refused = if book.shut {
                PortEvent::Refused
            } else {
                PortEvent::Spent
            };
            book.entries.push(clock.entry(&book.entries, refused));
            return None;
        }
        let position = book.written;
        let copy = item.clone();
        book.entries.push(clock.entry(
            &book.entries,
            PortEvent::Written {
                position,
                item: copy,
            },
        ));
        book.pending.push_back(item);
        book.written += 1;
        drop(guard);
        self.items.notify_one();
        Some(position)
    }

    /// The oldest items, no more than `most`, or all that is left where the port is shut.
    pub fn take(&self, clock: &mut Clock, out: &mut VecDeque<Taken>, most: usize) -> TakeAnswer {
        let mut guard = locked(&self.book);
        while !guard.shut && guard.pending.is_empty() {
            guard = waited(&self.items, guard);
        }
        let book = &mut *guard;
        let first = book.written - book.pending.len() as u64;
        let count = if book.shut {
            book.pending.len()
        } else {
            book.pending.len().min(most)
        };
        for (position, item) in (first..).zip(book.pending.drain(..count)) {
            out.push_back(Taken { position, item });
        }
        let (event, answer) = if book.shut {
            (PortEvent::Rest(count), TakeAnswer::Rest)
        } else {
            (PortEvent::Took(count), TakeAnswer::Took)
        };
        book.entries.push(clock.entry(&book.entries, event));
        drop(guard);
        // One item that goes leaves room for one writer.
        if most == 1 {
            self.room.notify_one();
        } else {
            self.room.notify_all();
        }
        answer
    }

    pub fn close(&self, clock: &mut Clock) {
        let mut guard = locked(&self.book);
        let book = &mut *guard;
        if !book.shut {
            book.shut = true;
            book.entries.push(clock.entry(&book.entries, PortEvent::Shut));
        }
        drop(guard);
        self.items.notify_all();
        self.room.notify_all();
    }
}

#[allow(dead_code)]
enum ReplyEvent {
    Opened(usize),
    Filled(usize, Vec<u8>),
    Taken(usize),
}

enum Progress {
    Open,
    Filled(Vec<u8>),
    Taken,
}

#[allow(dead_code)]
struct Slot {
    opener: u32,
    progress: Progress,
}

struct ReplyBook {
    entries: Vec<Entry<ReplyEvent>>,
    slots: Vec<Slot>,
}

pub struct Replies {
    book: Mutex<ReplyBook>,
    // Where the openers of slots wait: slot n at the place n, from the first one on again behind the last.
    settled: Vec<Condvar>,
}

impl Replies {
    /// One that has a condition for all slots.
    pub fn new() -> Replies {
        Replies::with_conditions(1)
    }

    /// One that has a condition for each of so many slots, at least one.
    pub fn with_conditions(slots: usize) -> Replies {
        Replies {
            book: Mutex::new(ReplyBook {
                entries: Vec::new(),
                slots: Vec::new(),
            }),
            settled: (0..slots).map(|_| Condvar::new()).collect(),
        }
    }

    fn settled(&self, n: usize) -> &Condvar {
        &self.settled[n % self.settled.len()]
    }

    pub fn open(&self, clock: &mut Clock) -> usize {
        let mut guard = locked(&self.book);
        let book = &mut *guard;
        let n = book.slots.len();
        book.slots.push(Slot {
            opener: clock.thread,
            progress: Progress::Open,
        });
        book.entries.push(clock.entry(&book.entries, ReplyEvent::Opened(n)));
        n
    }

    /// False where the slot is filled or taken.
    pub fn fill(&self, clock: &mut Clock, n: usize, flat: Vec<u8>) -> bool {
        let mut guard = locked(&self.book);
        let book = &mut *guard;
        let Some(slot) = book.slots.get_mut(n) else {
            return false;
        };
        if !matches!(slot.progress, Progress::Open) {
            return false;
        }
        book.entries.push(clock.entry(&book.entries, ReplyEvent::Filled(n, flat.clone())));
        slot.progress = Progress::Filled(flat);
        drop(guard);
        self.settled(n).notify_all();
        true
    }

    pub fn wait_for(&self, clock: &mut Clock, n: usize) -> Vec<u8> {
        let mut guard = locked(&self.book);
        while !matches!(guard.slots[n].progress, Progress::Filled(_)) {
            guard = waited(self.settled(n), guard);
        }
        let book = &mut *guard;
        let Progress::Filled(flat) = mem::replace(&mut book.slots[n].progress, Progress::Taken)
        else {
            unreachable!()
        };
        book.entries.push(clock.entry(&book.entries, ReplyEvent::Taken(n)));
        flat
    }
}

fn write_some(port: &Port, thread: u32, each: usize) {
    let mut clock = Clock::new(thread);
    let item = Item::new(QUESTION, Duty::None);
    for _ in 0..each {
        port.write(&mut clock, item.clone());
    }
}

fn take_all(port: &Port, most: usize) -> u64 {
    let mut clock = Clock::new(TAKER);
    let mut taken = VecDeque::with_capacity(most);
    let mut count = 0;
    loop {
        let answer = port.take(&mut clock, &mut taken, most);
        count += taken.len() as u64;
        taken.clear();
        if let TakeAnswer::Rest = answer {
            return count;
        }
    }
}

fn write_all(port: &Port, writers: usize, each: usize) {
    thread::scope(|scope| {
        for place in 1..writers {
            scope.spawn(move || write_some(port, FIRST_WRITER + place as u32, each));
        }
        write_some(port, FIRST_WRITER, each);
    });
    port.close(&mut Clock::new(CLOSER));
}

fn take_round(capacity: usize, writers: usize, each: usize) -> u64 {
    let port = Port::new(capacity, LIFE_LIMIT, &mut Clock::new(TAKER));
    thread::scope(|scope| {
        let taker = scope.spawn(|| take_all(&port, capacity));
        write_all(&port, writers, each);
        taker.join().expect("the taker has not failed")
    })
}

fn count_taken(capacity: usize, writers: usize, items: usize) -> u64 {
    let each = items / writers;
    let most = LIFE_LIMIT / writers;
    let whole: u64 = (0..each / most)
        .map(|_| take_round(capacity, writers, most))
        .sum();
    whole + take_round(capacity, writers, each % most)
}

fn ask_some(port: &Port, replies: &Replies, asks: usize) -> usize {
    let mut clock = Clock::new(CLOSER);
    let item = Item::new(QUESTION, Duty::None);
    let mut count = 0;
    for _ in 0..asks {
        let mut next = item.clone();
        let slot = replies.open(&mut clock);
        next.duty = Duty::Slot(slot);
        if port.write(&mut clock, next).is_none() {
            break;
        }
        replies.wait_for(&mut clock, slot);
        count += 1;
    }
    port.close(&mut clock);
    count
}

fn answer_all(port: &Port, replies: &Replies) {
    let mut clock = Clock::new(TAKER);
    let reply = Item::new(REPLY, Duty::None);
    let mut taken = VecDeque::with_capacity(ASK_CAPACITY);
    loop {
        let answer = port.take(&mut clock, &mut taken, ASK_CAPACITY);
        while let Some(next) = taken.pop_front() {
            if let Duty::Slot(slot) = next.item.duty {
                replies.fill(&mut clock, slot, reply.flat.clone());
            }
        }
        if let TakeAnswer::Rest = answer {
            return;
        }
    }
}

fn ask_round(asks: usize) -> usize {
    let port = Port::new(ASK_CAPACITY, LIFE_LIMIT, &mut Clock::new(TAKER));
    let replies = Replies::new();
    thread::scope(|scope| {
        scope.spawn(|| answer_all(&port, &replies));
        ask_some(&port, &replies, asks)
    })
}

fn count_replies(asks: usize) -> usize {
    let whole: usize = (0..asks / LIFE_LIMIT).map(|_| ask_round(LIFE_LIMIT)).sum();
    whole + ask_round(asks % LIFE_LIMIT)
}

fn number(word: &str, most: usize) -> Option<usize> {
    word.parse().ok().filter(|number| (1..=most).contains(number))
}

/// The line that the words ask for.
fn line_for(words: &[&str]) -> Option<String> {
    match words {
        ["port", capacity, writers, items] => {
            let capacity = number(capacity, CAPACITY_LIMIT)?;
            let writers = number(writers, THREAD_LIMIT)?;
            let items = number(items, ROUND_LIMIT)?;
            let taken = count_taken(capacity, writers, items);
            Some(format!("port {capacity} {writers} {items} taken {taken}"))
        }
        ["ask", asks] => {
            let asks = number(asks, ROUND_LIMIT)?;
            Some(format!("ask {asks} replies {}", count_replies(asks)))
        }
        _ => None,
    }
}

fn main() -> ExitCode {
    let words: Vec<String> = std::env::args().skip(1).collect();
    let words: Vec<&str> = words.iter().map(String::as_str).collect();
    match line_for(&words) {
        Some(line) => {
            println!("{line}");
            ExitCode::SUCCESS
        }
        None => {
            println!("usage: ports port CAPACITY WRITERS N\n       ports ask N");
            ExitCode::from(1)
        }
    }
}
