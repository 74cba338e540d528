//! The same turns in plain Rust, with nothing proved: what `bench/turn` holds the turn lock against. `turn THREADS N`
//! starts so many threads, which push N numbers each to one list under a `Mutex`, and prints the line of `kit_bench`.

use std::process::ExitCode;
use std::sync::Mutex;
use std::thread;

const THREAD_LIMIT: u32 = 8;
const ROUND_LIMIT: u32 = 10_000_000;

fn count_turns(threads: u32, each: u32) -> usize {
    let list = Mutex::new(Vec::new());
    thread::scope(|scope| {
        for _ in 0..threads {
            scope.spawn(|| {
                for number in 0..each {
                    list.lock().expect("no thread has failed").push(u64::from(number));
                }
            });
        }
    });
    list.into_inner().expect("no thread has failed").len()
}

fn main() -> ExitCode {
    let words: Vec<String> = std::env::args().skip(1).collect();
    if let [first, threads, each] = &words[..] {
        if let ("turn", Ok(threads @ 1..=THREAD_LIMIT), Ok(each @ 1..=ROUND_LIMIT)) =
            (first.as_str(), threads.parse(), each.parse())
        {
            println!("turn {threads} {each} entries {}", count_turns(threads, each));
            return ExitCode::SUCCESS;
        }
    }
    println!("usage: turn turn THREADS N");
    ExitCode::from(1)
}
