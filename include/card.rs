//! The log card for Rust: a safe wrapper over the functions of `card.h`, which says more of each. A block of 512 bytes
//! holds 1 to 31 entries, one for each arrival or pick that was done. Lengths are in bytes, clocks in ticks.
//!
//! Writer and reader undo each other: what was written is read as the same block, and an accepted block, written again,
//! is the same 512 bytes.
//!
//! It is taken in as a module, in any edition, and needs the standard library alone. `unsafe extern` asks for rustc
//! 1.82 or later.
//!
//! With Cargo: of what `tools/library` puts into `target/library`, copy `card.rs` to `src/` and `libcard.a` to a folder
//! `lib/` beside `Cargo.toml`. Write `mod card;` into `src/main.rs`, and into `build.rs`, beside `Cargo.toml`:
//!
//! ```text
//! fn main() {
//!     println!("cargo:rustc-link-search=native={}/lib", std::env::var("CARGO_MANIFEST_DIR").unwrap());
//!     println!("cargo:rustc-link-lib=static=card");
//!     println!("cargo:rerun-if-changed=lib/libcard.a");
//! }
//! ```
//!
//! Without Cargo: `#[path = ".."] mod card;` and `rustc .. -L target/library -l static=card`.

#![allow(dead_code)] // a logger need not use all of it

use std::error::Error;
use std::fmt;

pub const BLOCK_BYTES: usize = 512;
/// The most entries of a block.
pub const ENTRIES: usize = 31;
const CONTENT_WORDS: usize = 157;
const ENTRY_WORDS: usize = 5;

// A slice goes to C as a pointer and a length.
unsafe extern "C" {
    fn card_write(
        content: *const u64,
        content_words: usize,
        block: *mut u8,
        block_bytes: usize,
    ) -> u32;
    fn card_read(
        block: *const u8,
        block_bytes: usize,
        content: *mut u64,
        content_words: usize,
    ) -> u32;
}

/// Why a block was refused, by the numbers of `card.h`.
#[derive(Clone, Copy, Debug, PartialEq, Eq)]
pub enum Refusal {
    /// 1: the block has not exactly 512 bytes.
    Size,
    /// 11: the sums are not those of the bytes before them.
    Sums,
    /// 12: a field is outside the rules. In a block to be written: 0 or over 31 entries, a flow over 63, or a length
    /// that is 0 or over 1,500.
    Field,
    /// Any other number: 101 cannot come from this module, whose content has the right number of words.
    Other(u32),
}

impl Refusal {
    /// Its number in `card.h`.
    pub fn number(self) -> u32 {
        match self {
            Refusal::Size => 1,
            Refusal::Sums => 11,
            Refusal::Field => 12,
            Refusal::Other(number) => number,
        }
    }
}

impl fmt::Display for Refusal {
    fn fmt(&self, f: &mut fmt::Formatter<'_>) -> fmt::Result {
        let text = match *self {
            Refusal::Size => "the block has not exactly 512 bytes",
            Refusal::Sums => "the sums are not those of the bytes before them",
            Refusal::Field => "a field is outside the rules",
            Refusal::Other(_) => "not a number that this module can meet",
        };
        write!(f, "{}: {}", self.number(), text)
    }
}

impl Error for Refusal {}

fn refusal(number: u32) -> Refusal {
    match number {
        1 => Refusal::Size,
        11 => Refusal::Sums,
        12 => Refusal::Field,
        other => Refusal::Other(other),
    }
}

/// What a call with a packet was.
#[derive(Clone, Copy, Debug, PartialEq, Eq)]
pub enum Kind {
    Arrival,
    /// A pick without a leap.
    Pick,
    /// A pick with a leap.
    Leap,
}

/// A call with a packet.
#[derive(Clone, Copy, Debug, PartialEq, Eq)]
pub struct Packet {
    pub kind: Kind,
    /// 0 to 63.
    pub flow: u8,
    /// 1 to 1,500.
    pub length: u16,
    pub handle: u32,
    /// The server clock after the call.
    pub clock: u64,
}

/// A call as the card has it.
#[derive(Clone, Copy, Debug, PartialEq, Eq)]
pub enum Entry {
    Packet(Packet),
    /// A pick on which nothing waited.
    Idle,
}

/// What a block holds.
#[derive(Clone, Debug, PartialEq, Eq)]
pub struct Block {
    pub number: u32,
    /// 1 to 31.
    pub entries: Vec<Entry>,
}

fn words(entry: &Entry) -> [u64; ENTRY_WORDS] {
    match *entry {
        Entry::Packet(packet) => {
            let kind = match packet.kind {
                Kind::Arrival => 1,
                Kind::Pick => 2,
                Kind::Leap => 3,
            };
            let (length, handle) = (u64::from(packet.length), u64::from(packet.handle));
            [kind, u64::from(packet.flow), length, handle, packet.clock]
        }
        Entry::Idle => [4, 0, 0, 0, 0],
    }
}

// Words of an accepted block: a kind is 1 to 4, and each other word fits its field.
fn entry(words: &[u64]) -> Entry {
    let kind = match words[0] {
        1 => Kind::Arrival,
        2 => Kind::Pick,
        3 => Kind::Leap,
        _ => return Entry::Idle,
    };
    Entry::Packet(Packet {
        kind,
        flow: words[1] as u8,
        length: words[2] as u16,
        handle: words[3] as u32,
        clock: words[4],
    })
}

/// The 512 bytes of a block.
pub fn write(block: &Block) -> Result<[u8; BLOCK_BYTES], Refusal> {
    let mut content = [0u64; CONTENT_WORDS];
    content[0] = u64::from(block.number);
    content[1] = block.entries.len() as u64;
    for (place, entry) in content[2..].chunks_mut(ENTRY_WORDS).zip(&block.entries) {
        place.copy_from_slice(&words(entry));
    }
    let mut bytes = [0u8; BLOCK_BYTES];
    // Safety: each pointer is lent with its own length, the two do not overlap, and the call keeps neither.
    let answer = unsafe {
        card_write(
            content.as_ptr(),
            CONTENT_WORDS,
            bytes.as_mut_ptr(),
            BLOCK_BYTES,
        )
    };
    match answer {
        0 => Ok(bytes),
        _ => Err(refusal(answer)),
    }
}

/// What a block holds, from any bytes.
pub fn read(bytes: &[u8]) -> Result<Block, Refusal> {
    let mut content = [0u64; CONTENT_WORDS];
    // Safety: as in `write`.
    let answer = unsafe {
        card_read(
            bytes.as_ptr(),
            bytes.len(),
            content.as_mut_ptr(),
            CONTENT_WORDS,
        )
    };
    match answer {
        0 => Ok(Block {
            number: content[0] as u32,
            entries: content[2..]
                .chunks(ENTRY_WORDS)
                .take(content[1] as usize)
                .map(entry)
                .collect(),
        }),
        _ => Err(refusal(answer)),
    }
}
