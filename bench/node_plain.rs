//! The deliveries of node_calls.c over maps of the standard library, as they are written without proofs: the bytes are read,
//! determinants and holders go into a map, the message's name into a set, and the list and the body are returned.
use std::collections::{BTreeMap, BTreeSet};

const EACH: usize = 64;
const RUNS: usize = 20;

#[repr(C)]
struct Timespec {
    seconds: i64,
    nanoseconds: i64,
}

extern "C" {
    fn clock_gettime(clock: i32, at: *mut Timespec) -> i32;
}

/// The thread's processor time.
fn nanoseconds() -> f64 {
    let mut at = Timespec { seconds: 0, nanoseconds: 0 };
    unsafe { clock_gettime(3, &mut at) };
    at.seconds as f64 * 1e9 + at.nanoseconds as f64
}

/// Source, ssn, dest, rsn.
#[derive(Clone, Copy, PartialEq, Eq, PartialOrd, Ord)]
struct Det(u8, u32, u8, u32);

#[derive(Clone, Copy, Default)]
struct Holders([u64; 4]);

impl Holders {
    fn insert(&mut self, process: u8) {
        self.0[usize::from(process / 64)] |= 1 << (process % 64);
    }

    fn join(&mut self, other: Holders) {
        for (word, more) in self.0.iter_mut().zip(other.0) {
            *word |= more;
        }
    }
}

#[derive(Default)]
struct Process {
    log: BTreeMap<Det, Holders>,
    received: BTreeSet<(u8, u32)>,
}

struct Bytes<'a>(&'a [u8]);

impl<'a> Bytes<'a> {
    fn take(&mut self, count: usize) -> Option<&'a [u8]> {
        if self.0.len() < count {
            return None;
        }
        let (front, rest) = self.0.split_at(count);
        self.0 = rest;
        Some(front)
    }

    fn byte(&mut self) -> Option<u8> {
        Some(self.take(1)?[0])
    }

    fn number(&mut self) -> Option<u32> {
        Some(u32::from_be_bytes(self.take(4)?.try_into().ok()?))
    }

    fn det(&mut self) -> Option<Det> {
        Some(Det(self.byte()?, self.number()?, self.byte()?, self.number()?))
    }
}

fn deliver(process: &mut Process, me: u8, parcel: &[u8]) -> Option<(Vec<Det>, Vec<u8>)> {
    let mut bytes = Bytes(parcel);
    let head = bytes.take(28)?;
    let (source, ssn) = (head[14], bytes.number()?);
    if head[0] != 1 || head[15] != me || !process.received.insert((source, ssn)) {
        return None;
    }
    let mut listed = Vec::new();
    for _ in 0..bytes.number()? {
        let det = bytes.det()?;
        let mut holders = Holders::default();
        for _ in 0..bytes.byte()? {
            holders.insert(bytes.byte()?);
        }
        holders.insert(source);
        holders.insert(me);
        process.log.entry(det).or_default().join(holders);
        listed.push(det);
    }
    let own = Det(source, ssn, me, process.received.len() as u32 - 1);
    let mut holders = Holders::default();
    holders.insert(me);
    process.log.insert(own, holders);
    let place = listed.partition_point(|det| *det < own);
    listed.insert(place, own);
    let length = bytes.number()? as usize;
    Some((listed, bytes.take(length)?.to_vec()))
}

fn main() {
    let read = std::fs::read(std::env::args().nth(1).expect("a file")).expect("a file of parcels");
    let (mut rest, mut parcels) = (&read[..], Vec::new());
    while !rest.is_empty() {
        let length = u32::from_le_bytes(rest[..4].try_into().unwrap()) as usize;
        parcels.push(&rest[4..4 + length]);
        rest = &rest[4 + length..];
    }
    let mut least = f64::MAX;
    for _ in 0..RUNS {
        let (mut process, mut all) = (Process::default(), 0.0);
        for some in parcels.chunks(EACH) {
            let began = nanoseconds();
            for parcel in some {
                let delivered = deliver(&mut process, 2, parcel).expect("a message");
                std::hint::black_box(&delivered);
            }
            all += nanoseconds() - began;
            process.log.clear();
        }
        least = least.min(all / parcels.len() as f64);
    }
    println!("{least:.0}");
}
