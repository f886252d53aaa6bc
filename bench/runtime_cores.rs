//! The deliveries of the program in `runtime/` over maps of the standard library, as they are written without proofs: what each
//! process knows, what of it its messages carry, and of each delivery its list and of each step the batch of its messages, which
//! stay. Takes the words `KIND N F`, and prints how many deliveries there were, how many determinants these listed, and the
//! nanoseconds of each thousand of deliveries.
use std::collections::{BTreeMap, VecDeque};
use std::rc::Rc;
use std::time::Instant;

const LISTED: usize = 1_048_576;
const ENTRIES: usize = 65_536;

/// Source, ssn, dest, rsn.
#[derive(Clone, Copy, PartialEq, Eq, PartialOrd, Ord)]
struct Det(u8, u32, u8, u32);

#[derive(Clone, Copy, Default)]
struct Holders([u64; 4]);

impl Holders {
    fn insert(&mut self, process: u8) {
        self.0[usize::from(process / 64)] |= 1 << (process % 64);
    }

    fn join(&mut self, other: Holders) {
        for (word, more) in self.0.iter_mut().zip(other.0) {
            *word |= more;
        }
    }

    fn len(&self) -> u32 {
        self.0.iter().map(|word| word.count_ones()).sum()
    }
}

type Batch = Rc<Vec<(Det, Holders)>>;

#[derive(Default)]
struct Process {
    known: BTreeMap<Det, Holders>,
    carried: BTreeMap<Det, Holders>,
    sent: Vec<Batch>,
    received: u32,
}

impl Process {
    fn learn(&mut self, det: Det, heard: Holders, faults: u32) {
        let holders = self.known.entry(det).or_default();
        holders.join(heard);
        if holders.len() <= faults {
            self.carried.insert(det, *holders);
        } else {
            self.carried.remove(&det);
        }
    }

    fn send(&mut self, from: u8, to: u8) -> Message {
        let batch: Batch = Rc::new(self.carried.iter().map(|(det, holders)| (*det, *holders)).collect());
        self.sent.push(Rc::clone(&batch));
        Message { from, to, ssn: self.sent.len() as u32 - 1, batch }
    }
}

struct Message {
    from: u8,
    to: u8,
    ssn: u32,
    batch: Batch,
}

/// To whom a process sends when it begins, if it does.
fn begins(kind: &str, n: usize, me: usize) -> Option<usize> {
    match kind {
        "ring" => (me == 0).then_some(1 % n),
        "echo" => (me ^ 1 < n).then_some(me ^ 1),
        _ => (me != 0).then_some(0),
    }
}

/// Takes a delivery in, and tells what it lists.
fn deliver(process: &mut Process, message: &Message, faults: u32) -> Vec<Det> {
    let own = Det(message.from, message.ssn, message.to, process.received);
    let mut listed = Vec::with_capacity(message.batch.len() + 1);
    listed.extend(message.batch.iter().map(|(det, _)| *det));
    if let Err(place) = listed.binary_search(&own) {
        listed.insert(place, own);
    }
    for (det, holders) in message.batch.iter() {
        let mut heard = *holders;
        heard.insert(message.from);
        heard.insert(message.to);
        process.learn(*det, heard, faults);
    }
    let mut held = Holders::default();
    held.insert(message.to);
    process.learn(own, held, faults);
    process.received += 1;
    listed
}

fn main() {
    let words: Vec<String> = std::env::args().skip(1).collect();
    let (kind, n, faults) = (words[0].as_str(), words[1].parse::<usize>().unwrap(), words[2].parse::<u32>().unwrap());
    let mut processes: Vec<Process> = (0..n).map(|_| Process::default()).collect();
    let mut queue = VecDeque::new();
    for me in 0..n {
        if let Some(to) = begins(kind, n, me) {
            queue.push_back(processes[me].send(me as u8, to as u8));
        }
    }
    let (mut entries, mut listed, mut thousands) = (queue.len(), 0, Vec::new());
    let mut trace: Vec<(u8, Vec<Det>)> = Vec::new();
    let mut start = Instant::now();
    while let Some(message) = queue.pop_front() {
        if entries + 2 > ENTRIES || listed + message.batch.len() + 1 > LISTED {
            break;
        }
        let me = message.to;
        let process = &mut processes[usize::from(me)];
        let list = deliver(process, &message, faults);
        listed += list.len();
        trace.push((me, list));
        let to = if kind == "ring" { ((usize::from(me) + 1) % n) as u8 } else { message.from };
        queue.push_back(process.send(me, to));
        entries += 2;
        if trace.len() % 1000 == 0 {
            thousands.push(start.elapsed().as_nanos());
            start = Instant::now();
        }
    }
    thousands.push(start.elapsed().as_nanos());
    let told: Vec<String> = thousands.iter().map(u128::to_string).collect();
    println!("{} {listed} {}", trace.len(), told.join(" "));
}
