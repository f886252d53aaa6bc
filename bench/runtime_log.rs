//! The deliveries of runtime_log.rattle over maps of the standard library, as they are written without proofs. The word
//! `scan` has each delivery look through the whole map for what the next message carries; `index` keeps the determinants
//! that messages carry in a set of their own.
use std::collections::{BTreeMap, BTreeSet};
use std::time::Instant;

const DELIVERIES: u32 = 30_000;
const FLUSH: u32 = 8;
const FAULTS: u32 = 1;

/// Source, ssn, dest, rsn.
#[derive(Clone, Copy, PartialEq, Eq, PartialOrd, Ord)]
struct Det(u8, u32, u8, u32);

#[derive(Clone, Copy, Default)]
struct Holders([u64; 4]);

impl Holders {
    fn insert(&mut self, process: u8) {
        self.0[usize::from(process / 64)] |= 1 << (process % 64);
    }

    fn join(&mut self, other: Holders) {
        for (word, more) in self.0.iter_mut().zip(other.0) {
            *word |= more;
        }
    }

    fn len(&self) -> u32 {
        self.0.iter().map(|word| word.count_ones()).sum()
    }
}

#[derive(Clone, Copy, Default)]
struct Known {
    holders: Holders,
    stable: bool,
}

impl Known {
    fn is_carried(&self) -> bool {
        !self.stable && self.holders.len() <= FAULTS
    }
}

#[derive(Default)]
struct Log {
    known: BTreeMap<Det, Known>,
    open: BTreeSet<Det>,
    has_index: bool,
}

impl Log {
    fn learn(&mut self, det: Det, heard: Holders) {
        let known = self.known.entry(det).or_default();
        known.holders.join(heard);
        if self.has_index {
            if known.is_carried() {
                self.open.insert(det);
            } else {
                self.open.remove(&det);
            }
        }
    }

    fn mark_stable(&mut self, det: Det) {
        if let Some(known) = self.known.get_mut(&det) {
            known.stable = true;
            self.open.remove(&det);
        }
    }

    fn choose(&self) -> Vec<(Det, Holders)> {
        if self.has_index {
            return self.open.iter().map(|det| (*det, self.known[det].holders)).collect();
        }
        let carried = self.known.iter().filter(|(_, known)| known.is_carried());
        carried.map(|(det, known)| (*det, known.holders)).collect()
    }
}

#[derive(Default)]
struct Process {
    log: Log,
    sent: u32,
    received: u32,
}

struct Message {
    from: u8,
    ssn: u32,
    batch: Vec<(Det, Holders)>,
}

fn deliver(process: &mut Process, me: u8, message: &Message) -> Message {
    for (det, holders) in &message.batch {
        let mut heard = *holders;
        heard.insert(message.from);
        heard.insert(me);
        process.log.learn(*det, heard);
    }
    let mut held = Holders::default();
    held.insert(me);
    process.log.learn(Det(message.from, message.ssn, me, process.received), held);
    let batch = process.log.choose();
    process.received += 1;
    if process.received % FLUSH == 0 {
        for (det, _) in &batch {
            process.log.mark_stable(*det);
        }
    }
    process.sent += 1;
    Message { from: me, ssn: process.sent - 1, batch }
}

fn next(seed: &mut u32, me: u8, processes: u8) -> u8 {
    *seed = seed.wrapping_mul(1_664_525).wrapping_add(1_013_904_223);
    let picked = ((*seed >> 16) % u32::from(processes)) as u8;
    if picked == me { (picked + 1) % processes } else { picked }
}

fn run(count: u8, has_index: bool) {
    let log = || Log { has_index, ..Log::default() };
    let mut processes: Vec<Process> = (0..count).map(|_| Process { log: log(), ..Process::default() }).collect();
    let mut message = Message { from: 0, ssn: 0, batch: Vec::new() };
    let (mut seed, mut me, mut items) = (1, 0, 0);
    let mut start = Instant::now();
    for i in 0..DELIVERIES {
        me = next(&mut seed, me, count);
        let process = &mut processes[usize::from(me)];
        message = deliver(process, me, &message);
        items += message.batch.len();
        if i % 1000 == 999 {
            let now = Instant::now();
            let took = (now - start).as_nanos();
            println!("{count} {i} {took} {} {items}", process.log.known.len());
            start = now;
        }
    }
}

fn main() {
    let has_index = std::env::args().nth(1).as_deref() == Some("index");
    run(2, has_index);
    run(64, has_index);
}
