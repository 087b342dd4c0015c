//! Noon at the gateway: a camera and sixty loggers share one link, all of them with packets waiting all the time.
//! Prints what they got beside what they booked: a part of the bytes charged, the packets' own and the headers'.
//!
//! Build and run, in the repository's folder, once `tools/library` has made the library:
//!   rustc -O examples/noon.rs -L target/library -l static=uplink -o target/noon-rs && target/noon-rs

#[path = "../include/uplink.rs"]
mod uplink;

use std::ops::Range;
use uplink::{Pick, Refusal, Uplink};

const FLOWS: usize = 61;
const CAMERA: usize = 0;
const DEEP: u32 = 8;
const PUSH_BACK: u32 = 48;
const PICKS: u32 = 200_000;
const HEADER: u32 = 12; // bytes that the radio sends with each packet

/// What each flow got: bytes charged, and the packets' own.
struct Got {
    charged: [u64; FLOWS],
    own: [u64; FLOWS],
    leaps: u64,
    pushed_back: u64,
}

/// Sends a packet; its flow brings in another. The camera brings in two: before its 64 places are full, the gateway
/// tells it to wait.
fn send_one(link: &mut Uplink, handle: u32, got: &mut Got) -> Result<(), Refusal> {
    let packet = match link.pick() {
        Pick::Packet(packet) => packet,
        Pick::Idle => return Ok(()),
        Pick::Refused(why) => return Err(why),
    };
    let (f, length) = (packet.flow as usize, packet.length as u32);
    got.own[f] += length as u64;
    got.charged[f] += (length + HEADER) as u64;
    got.leaps += packet.leapt as u64;
    link.arrival(packet.flow, length, handle)?;
    if f == CAMERA && link.depth(packet.flow)?.waiting < PUSH_BACK {
        link.arrival(packet.flow, length, PICKS + handle)?;
    } else if f == CAMERA {
        got.pushed_back += 1;
    }
    Ok(())
}

/// A row: bytes, and in thousandths of what all flows got.
fn show(name: &str, booked: u32, got: &Got, flows: Range<usize>) {
    print!("{:10} {:6}", name, booked);
    for bytes in [&got.charged, &got.own].iter() {
        let part: u64 = bytes[flows.clone()].iter().sum();
        let all: u64 = bytes.iter().sum();
        print!(" {:10} {:11.1}", part, 1000.0 * part as f64 / all as f64);
    }
    println!();
}

fn noon() -> Result<(), Refusal> {
    let row = |f| if f == CAMERA { (700, 1500) } else { (5, 64) };
    let (shares, largest): (Vec<u32>, Vec<u32>) = (0..FLOWS).map(row).unzip();
    let mut link = Uplink::open(&shares, &largest, HEADER)?;
    let mut got = Got {
        charged: [0; FLOWS],
        own: [0; FLOWS],
        leaps: 0,
        pushed_back: 0,
    };

    // The burst: every flow has packets waiting, and each that is sent is followed by another.
    for f in 0..FLOWS {
        for k in 0..DEEP {
            link.arrival(f as u32, largest[f], k)?;
        }
    }
    for i in 0..PICKS {
        send_one(&mut link, DEEP + i, &mut got)?;
    }
    let (leaps, pushed_back) = (got.leaps, got.pushed_back);
    println!("{PICKS} picks, {leaps} leaps, {HEADER} bytes of header with each packet");
    println!("           booked    charged thousandths  own bytes thousandths");
    show("camera", 700, &got, CAMERA..CAMERA + 1);
    show("60 loggers", 300, &got, 1..FLOWS);
    show("logger 1", 5, &got, 1..2);
    show("logger 60", 5, &got, 60..61);
    let waiting = link.depth(CAMERA as u32)?.waiting;
    println!("camera: {pushed_back} packets pushed back, at {waiting} waiting");
    Ok(())
}

fn main() {
    if let Err(why) = noon() {
        eprintln!("refused with {}", why);
        std::process::exit(1);
    }
}
