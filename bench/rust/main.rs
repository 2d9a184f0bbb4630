//! The same machines in plain Rust, for comparison: runs, drains and runs in order as often as the three arguments say, and
//! prints what was done.

mod isa;
mod machines;

use isa::Refusal;
use machines::{Counter, InOrder, State};
use std::hint::black_box;

/// Rules or instructions of all repetitions, and the refusal and the counter of the last.
struct Tally {
    rules: u64,
    refusal: Refusal,
    counter: Counter,
}

/// Repeats a part, each time from memory that is restored.
fn repeat(
    times: u64,
    kept: &[u8],
    mut part: impl FnMut(&mut [u8]) -> (u64, Refusal, Counter),
) -> Tally {
    let mut memory = kept.to_vec();
    let mut tally = Tally {
        rules: 0,
        refusal: 0,
        counter: Counter::At(0),
    };
    for _ in 0..times {
        memory.copy_from_slice(black_box(kept));
        let (rules, refusal, counter) = part(&mut memory);
        tally = Tally {
            rules: tally.rules + rules,
            refusal,
            counter,
        };
    }
    tally
}

/// A line of the form `run 10 refused 0 pc 5`.
fn show(part: &str, tally: Tally) {
    let counter = match tally.counter {
        Counter::At(address) => address.to_string(),
        Counter::Stall => "stall".to_string(),
    };
    println!(
        "{part} {} refused {} pc {counter}",
        tally.rules, tally.refusal
    );
}

fn file(name: &str) -> Vec<u8> {
    std::fs::read(name).unwrap_or_default()
}

fn times(argument: usize) -> u64 {
    std::env::args()
        .nth(argument)
        .and_then(|text| text.parse().ok())
        .unwrap_or(0)
}

fn main() {
    let (program, kept, schedule) = (file("program.ax"), file("memory.ax"), file("schedule.ax"));
    let mut left = kept.clone();
    let mut reached = State::start();
    let (_, issued, _) = reached.run(&program, &mut left, &schedule);

    let runs = repeat(times(1), &kept, |memory| {
        let mut state = State::start();
        let (accepted, _, refusal) = state.run(black_box(&program), memory, black_box(&schedule));
        (accepted as u64, refusal, state.counter)
    });
    show("run", runs);
    let drains = repeat(times(2), &left, |memory| {
        let mut state = black_box(&reached).clone();
        let (rules, refusal) = state.drain(black_box(&program), memory);
        (rules as u64, refusal, state.counter)
    });
    show("drain", drains);
    let executions = repeat(times(3), &kept, |memory| {
        let mut machine = InOrder::start();
        let (executed, stop) = machine.run(black_box(&program), memory, black_box(issued as u32));
        (executed as u64, stop, Counter::At(machine.counter))
    });
    show("inorder", executions);
}
