//! What the model of the protocol between nodes consists of: processes, what is in transit between them, and stable storage.
use std::fmt::Write;

pub const MAX: usize = 6;

/// A determinant: source, ssn, dest and rsn in 3, 5, 3 and 5 bits, so that numbers ascend as docs/FORMAT.md has it.
pub type Det = u16;

pub fn det(source: u8, ssn: u8, dest: u8, rsn: u8) -> Det {
    assert!(ssn < 32 && rsn < 32);
    (source as u16) << 13 | (ssn as u16) << 8 | (dest as u16) << 5 | rsn as u16
}
pub fn source_of(d: Det) -> u8 {
    (d >> 13) as u8
}
pub fn ssn_of(d: Det) -> u8 {
    (d >> 8 & 31) as u8
}
pub fn dest_of(d: Det) -> u8 {
    (d >> 5 & 7) as u8
}
pub fn rsn_of(d: Det) -> u8 {
    (d & 31) as u8
}
/// Whether two determinants are of one slot: the same receiver and rsn.
pub fn same_slot(a: Det, b: Det) -> bool {
    a & 0xff == b & 0xff
}
pub fn show(d: Det) -> String {
    let mut s = String::new();
    let _ = write!(s, "[{},{},{},{}]", source_of(d), ssn_of(d), dest_of(d), rsn_of(d));
    s
}

pub fn insert<T: Ord>(sorted: &mut Vec<T>, x: T) {
    if let Err(i) = sorted.binary_search(&x) {
        sorted.insert(i, x);
    }
}
pub fn has(sorted: &[Det], d: Det) -> bool {
    sorted.binary_search(&d).is_ok()
}

/// A log: ascending determinants, each with the processes known to hold it and whether it is known to be stable.
#[derive(Clone, PartialEq, Eq, PartialOrd, Ord, Debug, Default)]
pub struct Log(pub Vec<(Det, u8, bool)>);

impl Log {
    pub fn get(&self, d: Det) -> Option<(u8, bool)> {
        self.0.binary_search_by_key(&d, |e| e.0).ok().map(|i| (self.0[i].1, self.0[i].2))
    }
    pub fn has(&self, d: Det) -> bool {
        self.get(d).is_some()
    }
    pub fn learn(&mut self, d: Det, holders: u8, stable: bool) {
        match self.0.binary_search_by_key(&d, |e| e.0) {
            Ok(i) => {
                self.0[i].1 |= holders;
                self.0[i].2 |= stable;
            }
            Err(i) => self.0.insert(i, (d, holders, stable)),
        }
    }
    pub fn learn_all(&mut self, other: &Log) {
        other.0.iter().for_each(|&(d, holders, stable)| self.learn(d, holders, stable));
    }
    pub fn dets(&self) -> Vec<Det> {
        self.0.iter().map(|e| e.0).collect()
    }
}

/// A round of a process that gathers. `view[q]` is q's number as it was before the round.
#[derive(Clone, PartialEq, Eq, Debug)]
pub struct Round {
    pub name: u8,
    pub view: [u8; MAX],
    pub replied: u8,
    pub answered: u8, // those of them that were up, and sent their logs
    pub gathered: Log,
    pub read: bool,  // stable storage was read
    pub void: bool,  // it was given up; what is left of it matters to broken rules alone
}

#[derive(Clone, PartialEq, Eq, Debug)]
pub struct Node {
    pub up: bool,
    pub lane: u8, // the present one (incarnation); of a process that is down the last one
    pub life: u8, // ghost: how many lanes there were before; another number than `lane` only where numbers are reused
    pub log: Log,
    pub floors: [u8; MAX],
    pub sent: u8,
    pub received: Vec<(u8, u8)>, // names, each at its rsn
    pub depends: Vec<Det>,       // ghost: the deliveries on which the present lane depends
    pub round: Option<Box<Round>>,
    pub begun: u8,               // how many rounds it has begun, where replies are late
    pub to_recover: Vec<Det>,    // ghost, of a process that is down: what its last lane logged and nobody has delivered again as new
}

#[derive(Clone, PartialEq, Eq, Debug, PartialOrd, Ord)]
pub struct Message {
    pub source: u8,
    pub life: u8, // ghost: with the ssn the identity of the send
    pub lane: u8,
    pub ssn: u8,
    pub to: u8,
    pub batch: Vec<(Det, u8)>,
    pub depends: Vec<Det>, // ghost: the deliveries on which the send depends
}

#[derive(Clone, PartialEq, Eq, Debug, PartialOrd, Ord)]
pub struct Ack {
    pub source: u8,
    pub lane: u8,
    pub to: u8,
    pub dets: Vec<Det>,
}

/// What a recovery sends, where replies are late: it may be taken at any later time, again and again, or never.
#[derive(Clone, PartialEq, Eq, Debug, PartialOrd, Ord)]
pub enum Packet {
    Question { from: u8, round: u8, view: [u8; MAX] },
    Answer { from: u8, to: u8, round: u8, log: Log },
    NotUp { from: u8, to: u8, round: u8 },
    Read { from: u8, round: u8, view: [u8; MAX] },
    WasRead { to: u8, round: u8, dets: Vec<Det> },
}

#[derive(Clone, Copy, PartialEq, Eq, Debug, Default)]
pub struct Counts {
    pub sends: u8,
    pub deliveries: u8,
    pub crashes: u8,
    pub rounds: u8,
    pub writes: u8,
    pub acks: u8,
}

#[derive(Clone, PartialEq, Eq, Debug)]
pub struct State {
    pub nodes: Vec<Node>,
    pub messages: Vec<Message>,     // all that were sent, ascending
    pub acks: Vec<Ack>,             // all that were sent, ascending
    pub packets: Vec<Packet>,       // all that were sent, ascending
    pub writes: Vec<(u8, u8, Det)>, // begun, and neither stored nor refused: by which process, in which lane
    pub stored: Vec<Det>,           // in stable storage
    pub recorded: Vec<Det>,         // with a stable entry
    pub used: Counts,
}

#[derive(Clone, PartialEq, Eq, Debug)]
pub enum Event {
    Send { p: u8, life: u8, to: u8, ssn: u8 },
    Deliver { to: u8, source: u8, life: u8, ssn: u8, rsn: u8, listed: Vec<Det> },
    Stable(Det),
    Crash(u8),
    Restart(u8, Vec<Det>),
    Forget(u8, Vec<Det>),
}

#[derive(Clone, Copy, Debug)]
pub struct Bounds {
    pub n: usize,
    pub f: u32,
    pub max: Counts,
    pub self_sends: bool,
    pub any_give_up: bool,  // a round may be given up at any time, not only where it can't complete
    pub late: bool,         // questions, replies and what storage says are packets of their own
    pub invariant: bool,    // check each clause of the invariant, and that each step is a legal one
    pub prune: bool,        // drop what nobody can ever take: right only of the unbroken protocol
    pub shown: bool,        // of survivors look only at those that a trace shows: in logs, and with a stable entry
}

impl Node {
    /// The present lane, or the next one of a process that is not up.
    pub fn number(&self) -> u8 {
        self.lane + !self.up as u8
    }
    pub fn present_round(&self) -> Option<&Round> {
        self.round.as_deref().filter(|r| !r.void)
    }
}

pub fn bits(set: u8) -> impl Iterator<Item = usize> {
    (0..8).filter(move |q| set >> q & 1 == 1)
}

impl State {
    pub fn start(n: usize) -> State {
        let node = Node {
            up: true,
            lane: 0,
            life: 0,
            log: Log::default(),
            floors: [0; MAX],
            sent: 0,
            received: vec![],
            depends: vec![],
            round: None,
            begun: 0,
            to_recover: vec![],
        };
        State { nodes: vec![node; n], messages: vec![], acks: vec![], packets: vec![], writes: vec![], stored: vec![], recorded: vec![], used: Counts::default() }
    }

    pub fn down(&self) -> u8 {
        self.nodes.iter().enumerate().filter(|(_, x)| !x.up).fold(0, |m, (p, _)| m | 1 << p)
    }

    /// Whether a round of s can still complete: all that have not replied are as its view has them.
    pub fn is_open(&self, s: usize) -> bool {
        let Some(round) = self.nodes[s].present_round() else { return false };
        (0..self.nodes.len()).all(|q| q == s || round.replied >> q & 1 == 1 || self.nodes[q].number() == round.view[q])
    }

    /// Whether what this lane of `source` sends to `to` is in transit: it may be taken now or later.
    pub fn in_transit(&self, source: u8, lane: u8, to: u8) -> bool {
        let (a, b) = (&self.nodes[source as usize], &self.nodes[to as usize]);
        if b.up {
            return lane >= b.floors[source as usize];
        }
        (a.up && a.lane == lane)
            || (source != to && b.present_round().is_some_and(|r| r.replied >> source & 1 == 1 && lane >= r.view[source as usize]) && self.is_open(to as usize))
    }

    /// The state with the replies to present rounds taken: that a reply is late changes nothing but when. (What was read of storage is
    /// stored, so it survives without that.)
    pub fn settled(&self) -> State {
        let mut t = self.clone();
        for packet in &self.packets {
            match packet {
                Packet::Answer { from, to, round, log } => t.take_reply(*to, *from, *round, Some(log)),
                Packet::NotUp { from, to, round } => t.take_reply(*to, *from, *round, None),
                _ => {}
            }
        }
        t
    }

    pub fn round_named(&mut self, s: u8, name: u8) -> Option<&mut Round> {
        self.nodes[s as usize].round.as_deref_mut().filter(|r| !r.void && r.name == name)
    }

    /// s, where it is in that round, takes what `from` has replied: its log, or that it is not up.
    pub fn take_reply(&mut self, s: u8, from: u8, round: u8, log: Option<&Log>) {
        if let Some(r) = self.round_named(s, round) {
            r.replied |= 1 << from;
            if let Some(log) = log {
                r.answered |= 1 << from;
                r.gathered.learn_all(log);
            }
        }
    }

    /// What survives: stored or with a stable entry, in a log, or in transit.
    pub fn survivors(&self) -> Vec<Det> {
        let mut all = self.recorded.clone();
        let mut add = |d: Det| insert(&mut all, d);
        self.nodes.iter().for_each(|x| x.log.0.iter().for_each(|e| add(e.0)));
        self.stored.iter().for_each(|&d| add(d));
        self.writes.iter().for_each(|w| add(w.2));
        for m in self.messages.iter().filter(|m| self.in_transit(m.source, m.lane, m.to)) {
            m.batch.iter().for_each(|e| add(e.0));
        }
        for a in self.acks.iter().filter(|a| self.in_transit(a.source, a.lane, a.to)) {
            a.dets.iter().for_each(|&d| add(d));
        }
        for (s, x) in self.nodes.iter().enumerate() {
            if let Some(r) = x.present_round().filter(|_| self.is_open(s)) {
                r.gathered.0.iter().for_each(|e| add(e.0));
            }
        }
        all
    }

    pub fn holders(&self, d: Det) -> u8 {
        self.nodes.iter().enumerate().filter(|(_, x)| x.log.has(d)).fold(0, |m, (p, _)| m | 1 << p)
    }

    /// Drops what nobody can ever take.
    pub fn prune(&mut self) {
        let settled;
        let now = if self.packets.is_empty() {
            &*self
        } else {
            settled = self.settled();
            &settled
        };
        let messages: Vec<Message> = self.messages.iter().filter(|m| now.in_transit(m.source, m.lane, m.to)).cloned().collect();
        let acks: Vec<Ack> = self.acks.iter().filter(|a| now.in_transit(a.source, a.lane, a.to)).cloned().collect();
        let nodes = &self.nodes;
        self.packets.retain(|packet| match packet {
            Packet::Question { view, .. } => nodes.iter().zip(view).any(|(x, &v)| x.number() <= v),
            Packet::Answer { to, round, .. } | Packet::NotUp { to, round, .. } | Packet::WasRead { to, round, .. } => {
                nodes[*to as usize].present_round().is_some_and(|r| r.name == *round)
            }
            Packet::Read { .. } => true,
        });
        self.messages = messages;
        self.acks = acks;
    }

    /// A fingerprint of 128 bits.
    pub fn key(&self) -> u128 {
        let n = self.nodes.len();
        let mut h = Mix(0x9e3779b97f4a7c15, 0xc2b2ae3d27d4eb4f);
        for x in &self.nodes {
            h.byte(x.up as u8);
            h.byte(x.lane);
            h.byte(x.life);
            h.log(&x.log);
            h.bytes(&x.floors[..n]);
            h.byte(x.sent);
            h.byte(x.received.len() as u8);
            x.received.iter().for_each(|r| h.byte(r.0 << 5 | r.1));
            h.dets(&x.depends);
            h.dets(&x.to_recover);
            h.byte(x.begun);
            match &x.round {
                None => h.byte(0),
                Some(r) => {
                    h.byte(1 + r.read as u8 + 2 * r.void as u8);
                    h.byte(r.name);
                    h.bytes(&r.view[..n]);
                    h.byte(r.replied);
                    h.byte(r.answered);
                    h.log(&r.gathered);
                }
            }
        }
        h.byte(self.messages.len() as u8);
        for m in &self.messages {
            h.bytes(&[m.source << 5 | m.ssn, m.lane << 3 | m.to, m.life, m.batch.len() as u8]);
            m.batch.iter().for_each(|e| h.word(e.0 as u32 | (e.1 as u32) << 16));
            h.dets(&m.depends);
        }
        h.byte(self.acks.len() as u8);
        for a in &self.acks {
            h.bytes(&[a.source << 5 | a.lane, a.to]);
            h.dets(&a.dets);
        }
        h.byte(self.packets.len() as u8);
        for packet in &self.packets {
            match packet {
                Packet::Question { from, round, view } => {
                    h.bytes(&[0, *from, *round]);
                    h.bytes(&view[..n]);
                }
                Packet::Answer { from, to, round, log } => {
                    h.bytes(&[1, *from, *to, *round]);
                    h.log(log);
                }
                Packet::NotUp { from, to, round } => h.bytes(&[2, *from, *to, *round]),
                Packet::Read { from, round, view } => {
                    h.bytes(&[3, *from, *round]);
                    h.bytes(&view[..n]);
                }
                Packet::WasRead { to, round, dets } => {
                    h.bytes(&[4, *to, *round]);
                    h.dets(dets);
                }
            }
        }
        h.byte(self.writes.len() as u8);
        for w in &self.writes {
            h.byte(w.0 << 5 | w.1);
            h.word(w.2 as u32);
        }
        h.dets(&self.stored);
        h.dets(&self.recorded);
        let u = &self.used;
        h.bytes(&[u.sends, u.deliveries, u.crashes, u.rounds, u.writes, u.acks]);
        h.end()
    }
}

struct Mix(u64, u64);
impl Mix {
    fn word(&mut self, w: u32) {
        self.0 = (self.0 ^ w as u64).wrapping_mul(0x100000001b3).rotate_left(23).wrapping_mul(0x9e3779b97f4a7c15);
        self.1 = (self.1.rotate_left(17) ^ w as u64).wrapping_mul(0xff51afd7ed558ccd) ^ (self.1 >> 29);
    }
    fn byte(&mut self, b: u8) {
        self.word(b as u32 + 1);
    }
    fn bytes(&mut self, bs: &[u8]) {
        bs.iter().for_each(|&b| self.byte(b));
    }
    fn dets(&mut self, ds: &[Det]) {
        self.byte(ds.len() as u8);
        ds.iter().for_each(|&d| self.word(d as u32 + 7));
    }
    fn log(&mut self, log: &Log) {
        self.byte(log.0.len() as u8);
        log.0.iter().for_each(|e| self.word(e.0 as u32 | (e.1 as u32) << 16 | (e.2 as u32) << 30));
    }
    fn end(self) -> u128 {
        let a = (self.0 ^ self.0 >> 31).wrapping_mul(0xbf58476d1ce4e5b9);
        let b = (self.1 ^ self.1 >> 30).wrapping_mul(0x94d049bb133111eb);
        ((a ^ a >> 29) as u128) << 64 | (b ^ b >> 32) as u128
    }
}
