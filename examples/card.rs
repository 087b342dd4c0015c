//! A block for the log card: five calls of the scheduler are written into 512 bytes, read back and printed. Then what
//! the reader and the writer say to a damaged byte and to a length outside the rules.
//!
//! Build and run, in the repository's folder, once `tools/library` has made the library:
//!   rustc -O examples/card.rs -L target/library -l static=card -o target/card-rs && target/card-rs

#[path = "../include/card.rs"]
mod card;

use card::{Block, Entry, Kind, Packet, Refusal};

fn call(kind: Kind, flow: u8, length: u16, handle: u32, clock: u64) -> Entry {
    Entry::Packet(Packet {
        kind,
        flow,
        length,
        handle,
        clock,
    })
}

/// Two packets of 100 bytes come, each to its own flow of share 500, and are sent; then nothing waits.
fn calls() -> Vec<Entry> {
    vec![
        call(Kind::Arrival, 0, 100, 7, 0),
        call(Kind::Arrival, 1, 100, 8, 0),
        call(Kind::Pick, 0, 100, 7, 72000),
        call(Kind::Pick, 1, 100, 8, 144000),
        Entry::Idle,
    ]
}

fn show(entry: &Entry) {
    let (name, flow, length, handle, clock) = match *entry {
        Entry::Packet(p) => {
            let name = match p.kind {
                Kind::Arrival => "arrival",
                Kind::Pick => "pick",
                Kind::Leap => "leap",
            };
            (name, p.flow, p.length, p.handle, p.clock)
        }
        Entry::Idle => ("idle", 0, 0, 0, 0),
    };
    println!("{name:7} flow {flow:2}, length {length:4}, handle {handle:10}, clock {clock}");
}

/// The number of what has to be a refusal.
fn number<T>(answer: Result<T, Refusal>) -> u32 {
    answer.err().map_or(0, Refusal::number)
}

fn log() -> Result<(), Refusal> {
    let mut block = Block {
        number: 258,
        entries: calls(),
    };
    let mut bytes = card::write(&block)?;
    let found = card::read(&bytes)?;
    println!("block {}, {} entries", found.number, found.entries.len());
    for entry in &found.entries {
        show(entry);
    }
    let head: Vec<String> = bytes[..5].iter().map(|byte| byte.to_string()).collect();
    println!("number and count on the card: {}", head.join(" "));

    bytes[100] ^= 1;
    println!(
        "one byte damaged: refused with {}",
        number(card::read(&bytes))
    );
    println!(
        "one byte short: refused with {}",
        number(card::read(&bytes[..511]))
    );
    block.entries[0] = call(Kind::Arrival, 0, 1501, 7, 0);
    println!(
        "a length of 1501: refused with {}",
        number(card::write(&block))
    );
    Ok(())
}

fn main() {
    if let Err(why) = log() {
        eprintln!("refused with {}", why);
        std::process::exit(1);
    }
}
