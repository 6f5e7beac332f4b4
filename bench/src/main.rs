//! The program `r10_plain`, run by hand: the paths that crates/r10_bench measures, written in plain Rust without proofs. It prints a
//! line `NAME VALUE UNIT` for each measure, by the processor time of its thread.

mod clock;
mod fault;
mod index;
mod judge;
mod measures;
mod medium;
mod message;
mod packet;
mod recorder;
#[cfg(test)]
mod tests;

use fault::Fault;
use std::process::ExitCode;

const USAGE: &str = "usage: r10_plain MESSAGES [channel|record|replay|follow|find|close|judge|lengths|state|write]..";

/// The parts that are run where none is named. Of the others, `record` is `replay` without the replay, `lengths` is `record` with
/// messages of several lengths, `state` says how quick the machine is, and `write` writes the file that is recorded.
const ALL: [&str; 6] = ["channel", "replay", "follow", "find", "close", "judge"];
const OTHERS: [&str; 4] = ["record", "lengths", "state", "write"];

fn run(part: &str, number: u32) -> Result<(), Fault> {
    match part {
        "channel" => measures::channel(number),
        "record" => measures::recorder(number, false),
        "replay" => measures::recorder(number, true),
        "follow" => measures::follow(number),
        "find" => measures::find(number),
        "close" => measures::close(number),
        "lengths" => measures::lengths(number),
        "state" => measures::state(),
        "write" => measures::write(number),
        _ => measures::judge(number),
    }
}

fn main() -> ExitCode {
    let words: Vec<String> = std::env::args().skip(1).collect();
    let parts: Vec<&str> = words.iter().skip(1).map(String::as_str).collect();
    let known = parts
        .iter()
        .all(|part| ALL.contains(part) || OTHERS.contains(part));
    let Some(number) = words
        .first()
        .and_then(|word| word.parse().ok())
        .filter(|_| known)
    else {
        println!("{USAGE}");
        return ExitCode::from(2);
    };
    for part in if parts.is_empty() { &ALL } else { &parts[..] } {
        if let Err(fault) = run(part, number) {
            eprintln!("r10_plain: {fault}");
            return ExitCode::FAILURE;
        }
    }
    ExitCode::SUCCESS
}
