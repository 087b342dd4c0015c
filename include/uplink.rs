//! The uplink scheduler for Rust: a safe wrapper over the functions of `uplink.h`, which says more of each.
//! Lengths are in bytes. Tags and clocks are in ticks: a byte takes the link 720 of them. A packet is charged its
//! length plus the link's header.
//!
//! It is taken in as a module, in any edition, and needs the standard library alone. `unsafe extern` asks for rustc
//! 1.82 or later.
//!
//! With Cargo: of what `tools/library` puts into `target/library`, copy `uplink.rs` to `src/` and `libuplink.a` to a
//! folder `lib/` beside `Cargo.toml`. Write `mod uplink;` into `src/main.rs`, and into `build.rs`, beside `Cargo.toml`:
//!
//! ```text
//! fn main() {
//!     println!("cargo:rustc-link-search=native={}/lib", std::env::var("CARGO_MANIFEST_DIR").unwrap());
//!     println!("cargo:rustc-link-lib=static=uplink");
//!     println!("cargo:rerun-if-changed=lib/libuplink.a");
//! }
//! ```
//!
//! Without Cargo: `#[path = ".."] mod uplink;` and `rustc .. -L target/library -l static=uplink`.

#![allow(dead_code)] // a gateway need not use all of it

use std::error::Error;
use std::fmt;

pub const RECORD_WORDS: usize = 132;
/// The order of a record's words: one kept by a library of another order has to be opened anew.
pub const RECORD_ORDER: u32 = 4;
pub const PLACES: usize = 4096;
const REPLY_WORDS: usize = 6;
const DEPTH_WORDS: usize = 4;

// A slice goes to C as a pointer and a length.
unsafe extern "C" {
    fn uplink_opening(
        shares: *const u32,
        shares_count: usize,
        largest: *const u32,
        largest_count: usize,
        header: u32,
        record: *mut u64,
        record_words: usize,
        lengths: *mut u16,
        lengths_places: usize,
        handles: *mut u32,
        handles_places: usize,
    ) -> u64;
    fn uplink_arrival(
        flow: u32,
        length: u32,
        handle: u32,
        record: *mut u64,
        record_words: usize,
        lengths: *mut u16,
        lengths_places: usize,
        handles: *mut u32,
        handles_places: usize,
    ) -> u32;
    fn uplink_pick(
        record: *mut u64,
        record_words: usize,
        lengths: *mut u16,
        lengths_places: usize,
        handles: *mut u32,
        handles_places: usize,
        reply: *mut u64,
        reply_words: usize,
    ) -> u32;
    fn uplink_depth(
        flow: u32,
        record: *const u64,
        record_words: usize,
        reply: *mut u64,
        reply_words: usize,
    ) -> u32;
}

/// Why a call was refused, by the numbers of `uplink.h`. A refused call changes nothing.
#[derive(Clone, Copy, Debug, PartialEq, Eq)]
pub enum Refusal {
    /// 3: the two lists differ in length, or have 0 or over 64 entries, or the header is over 64.
    Lists,
    /// 4: the share of this flow is outside 1 to 1,000.
    Share(u32),
    /// 5: the largest packet of this flow is outside 1 to 1,500.
    Largest(u32),
    /// 6: the shares sum to more than 1,000.
    Sum,
    /// 7: no such flow.
    NoFlow,
    /// 8: the length is 0 or over the flow's largest.
    Length,
    /// 9: 64 packets already wait in that flow.
    Full,
    /// 10: something waits and the clock is 2^62 or more. Every later pick is refused too, for what waits is not sent
    /// and so no Idle comes: only a new `open` helps, and what waits has to be brought in again.
    Clock,
    /// Any other number: 1, 2, 101 and 102 cannot come from an `Uplink`, whose lengths are right and whose record only
    /// the scheduler writes.
    Other(u32),
}

impl fmt::Display for Refusal {
    fn fmt(&self, f: &mut fmt::Formatter<'_>) -> fmt::Result {
        match *self {
            Refusal::Lists => f.write_str(
                "3: the two lists differ in length, or have 0 or over 64 entries, or the header is over 64",
            ),
            Refusal::Share(flow) => {
                write!(f, "4: the share of flow {} is outside 1 to 1,000", flow)
            }
            Refusal::Largest(flow) => write!(
                f,
                "5: the largest packet of flow {} is outside 1 to 1,500",
                flow
            ),
            Refusal::Sum => f.write_str("6: the shares sum to more than 1,000"),
            Refusal::NoFlow => f.write_str("7: no such flow"),
            Refusal::Length => f.write_str("8: the length is 0 or over the flow's largest"),
            Refusal::Full => f.write_str("9: 64 packets already wait in that flow"),
            Refusal::Clock => f.write_str("10: something waits and the clock is 2^62 or more"),
            Refusal::Other(number) => write!(f, "{}: not a number that an Uplink can meet", number),
        }
    }
}

impl Error for Refusal {}

fn refusal(number: u32, flow: u32) -> Refusal {
    match number {
        3 => Refusal::Lists,
        4 => Refusal::Share(flow),
        5 => Refusal::Largest(flow),
        6 => Refusal::Sum,
        7 => Refusal::NoFlow,
        8 => Refusal::Length,
        9 => Refusal::Full,
        10 => Refusal::Clock,
        other => Refusal::Other(other),
    }
}

/// The packet to send: it waits no more.
#[derive(Clone, Copy, Debug, PartialEq, Eq)]
pub struct Packet {
    pub flow: u32,
    pub length: u16,
    /// The name that the caller gave it at its arrival.
    pub handle: u32,
    pub tag: u64,
    pub leapt: bool,
    /// The server clock after the pick.
    pub clock: u64,
}

/// What a pick found.
#[derive(Clone, Copy, Debug, PartialEq, Eq)]
pub enum Pick {
    Packet(Packet),
    /// Nothing waits; clock, link time, all tags and the turn are 0 again.
    Idle,
    Refused(Refusal),
}

/// How deep a flow is, and what it has booked.
#[derive(Clone, Copy, Debug, PartialEq, Eq)]
pub struct Depth {
    /// How many packets wait: at 64 the next arrival is refused.
    pub waiting: u32,
    pub share: u32,
    pub largest: u32,
    pub tag: u64,
}

/// One link: the record and both memories, which nothing but the calls alters. So the promise on shares holds from
/// `open` on.
pub struct Uplink {
    record: [u64; RECORD_WORDS],
    lengths: Box<[u16; PLACES]>,
    handles: Box<[u32; PLACES]>,
}

impl Uplink {
    /// Opens a table of 1 to 64 flows: `shares[i]` (thousandths of the link) and `largest[i]` (bytes) are flow i's.
    /// `header` is what the link adds to each packet, 0 to 64 bytes.
    pub fn open(shares: &[u32], largest: &[u32], header: u32) -> Result<Uplink, Refusal> {
        let mut link = Uplink {
            record: [0; RECORD_WORDS],
            lengths: Box::new([0; PLACES]),
            handles: Box::new([0; PLACES]),
        };
        // Safety: each pointer is lent with its own length, no two overlap, and the call keeps none of them.
        let answer = unsafe {
            uplink_opening(
                shares.as_ptr(),
                shares.len(),
                largest.as_ptr(),
                largest.len(),
                header,
                link.record.as_mut_ptr(),
                RECORD_WORDS,
                link.lengths.as_mut_ptr(),
                PLACES,
                link.handles.as_mut_ptr(),
                PLACES,
            )
        };
        match answer {
            0 => Ok(link),
            _ => Err(refusal(answer as u32, (answer >> 32) as u32)),
        }
    }

    /// A packet of `length` bytes comes to `flow` and waits behind the flow's last one.
    pub fn arrival(&mut self, flow: u32, length: u32, handle: u32) -> Result<(), Refusal> {
        // Safety: as in `open`.
        let answer = unsafe {
            uplink_arrival(
                flow,
                length,
                handle,
                self.record.as_mut_ptr(),
                RECORD_WORDS,
                self.lengths.as_mut_ptr(),
                PLACES,
                self.handles.as_mut_ptr(),
                PLACES,
            )
        };
        match answer {
            0 => Ok(()),
            _ => Err(refusal(answer, 0)),
        }
    }

    /// The packet to send next. Flows of equal tags take turns, counting round from the flow picked last.
    pub fn pick(&mut self) -> Pick {
        let mut reply = [0u64; REPLY_WORDS];
        // Safety: as in `open`.
        let answer = unsafe {
            uplink_pick(
                self.record.as_mut_ptr(),
                RECORD_WORDS,
                self.lengths.as_mut_ptr(),
                PLACES,
                self.handles.as_mut_ptr(),
                PLACES,
                reply.as_mut_ptr(),
                REPLY_WORDS,
            )
        };
        match answer {
            0 => Pick::Packet(Packet {
                flow: reply[0] as u32,
                length: reply[1] as u16,
                handle: reply[2] as u32,
                tag: reply[3],
                leapt: reply[4] != 0,
                clock: reply[5],
            }),
            100 => Pick::Idle,
            _ => Pick::Refused(refusal(answer, 0)),
        }
    }

    /// How many packets wait in `flow`, so that a gateway can push back before it is full, and what the flow has
    /// booked.
    pub fn depth(&self, flow: u32) -> Result<Depth, Refusal> {
        let mut reply = [0u64; DEPTH_WORDS];
        // Safety: as in `open`; the record is only read.
        let answer = unsafe {
            uplink_depth(
                flow,
                self.record.as_ptr(),
                RECORD_WORDS,
                reply.as_mut_ptr(),
                DEPTH_WORDS,
            )
        };
        match answer {
            0 => Ok(Depth {
                waiting: reply[0] as u32,
                share: reply[1] as u32,
                largest: reply[2] as u32,
                tag: reply[3],
            }),
            _ => Err(refusal(answer, 0)),
        }
    }
}

/// The number waiting in each flow.
impl fmt::Debug for Uplink {
    fn fmt(&self, f: &mut fmt::Formatter<'_>) -> fmt::Result {
        let waiting: Vec<u32> = (0..)
            .map_while(|flow| self.depth(flow).ok())
            .map(|depth| depth.waiting)
            .collect();
        f.debug_struct("Uplink").field("waiting", &waiting).finish()
    }
}
