//! A plain audit after the definitions of docs/FORMAT.md: entries, happened-before as a closure over all events, crash sets one by one.
//! It shares nothing with the model of the protocol but the numbers of determinants.
use crate::state::{det, same_slot, show, Det, Event};
use std::collections::{BTreeMap, BTreeSet};

#[derive(Clone, Debug, PartialEq)]
pub enum Entry {
    Send { from: usize, to: usize, ssn: usize },
    Deliver { to: usize, send: usize, rsn: usize, listed: Vec<Det> },
    Stable(Det),
    Crash(usize),
    Restart(usize, Vec<Det>),
    Forget(usize, Vec<Det>),
}

/// The entries of what a run records.
pub fn entries(events: &[Event]) -> Vec<Entry> {
    let mut place = BTreeMap::new();
    let mut out = vec![];
    for (i, e) in events.iter().enumerate() {
        out.push(match e {
            Event::Send { p, life, to, ssn } => {
                place.insert((*p, *life, *ssn), i);
                Entry::Send { from: *p as usize, to: *to as usize, ssn: *ssn as usize }
            }
            Event::Deliver { to, source, life, ssn, rsn, listed } => Entry::Deliver { to: *to as usize, send: place[&(*source, *life, *ssn)], rsn: *rsn as usize, listed: listed.clone() },
            Event::Stable(d) => Entry::Stable(*d),
            Event::Crash(p) => Entry::Crash(*p as usize),
            Event::Restart(p, l) => Entry::Restart(*p as usize, l.clone()),
            Event::Forget(p, l) => Entry::Forget(*p as usize, l.clone()),
        });
    }
    out
}

pub fn text(n: usize, entries: &[Entry]) -> String {
    let list = |ds: &Vec<Det>| format!("[{}]", ds.iter().map(|&d| show(d)).collect::<Vec<_>>().join(","));
    let mut s = format!("[\"trace\",2,{n}]\n");
    for e in entries {
        s += &match e {
            Entry::Send { from, to, ssn } => format!("[\"send\",{from},{to},{ssn}]\n"),
            Entry::Deliver { to, send, rsn, listed } => format!("[\"deliver\",{to},{send},{rsn},{}]\n", list(listed)),
            Entry::Stable(d) => format!("[\"stable\",{}]\n", show(*d)),
            Entry::Crash(p) => format!("[\"crash\",{p}]\n"),
            Entry::Restart(p, l) => format!("[\"restart\",{p},{}]\n", list(l)),
            Entry::Forget(p, l) => format!("[\"forget\",{p},{}]\n", list(l)),
        };
    }
    s + &format!("[\"end\",{}]\n", entries.len())
}

/// Whether the entries may follow each other so.
pub fn fault(n: usize, es: &[Entry]) -> Option<String> {
    let (mut down, mut sends, mut count) = (vec![false; n], vec![0; n], vec![0; n]);
    let mut names: Vec<BTreeSet<(usize, usize)>> = vec![BTreeSet::new(); n];
    let mut delivered: BTreeSet<Det> = BTreeSet::new();
    let ascending = |l: &Vec<Det>| l.windows(2).all(|w| w[0] < w[1]);
    for (i, e) in es.iter().enumerate() {
        let bad = |what: &str| Some(format!("{what} at {i}"));
        match e {
            Entry::Send { from, ssn, .. } => {
                if down[*from] {
                    return bad("NotUp");
                }
                if *ssn != sends[*from] {
                    return bad("WrongSsn");
                }
                sends[*from] += 1;
            }
            Entry::Deliver { to, send, rsn, listed } => {
                if down[*to] {
                    return bad("NotUp");
                }
                let Some(Entry::Send { from, to: who, ssn }) = es[..i].get(*send) else { return bad("NoSend") };
                if who != to {
                    return bad("NoSend");
                }
                if *rsn != count[*to] {
                    return bad("WrongRsn");
                }
                if !names[*to].insert((*from, *ssn)) {
                    return bad("Doubled");
                }
                count[*to] += 1;
                delivered.insert(det(*from as u8, *ssn as u8, *to as u8, *rsn as u8));
                if !ascending(listed) {
                    return bad("Unsorted");
                }
                if listed.iter().any(|d| !delivered.contains(d)) {
                    return bad("NoDelivery");
                }
            }
            Entry::Stable(d) => {
                if !delivered.contains(d) {
                    return bad("NoDelivery");
                }
            }
            Entry::Crash(p) => {
                if down[*p] {
                    return bad("NotUp");
                }
                down[*p] = true;
            }
            Entry::Restart(p, l) => {
                if !down[*p] {
                    return bad("NotDown");
                }
                if !ascending(l) {
                    return bad("Unsorted");
                }
                if l.iter().any(|d| !delivered.contains(d)) {
                    return bad("NoDelivery");
                }
                down[*p] = false;
                sends[*p] = 0;
                count[*p] = 0;
                names[*p].clear();
            }
            Entry::Forget(p, l) => {
                if down[*p] {
                    return bad("NotUp");
                }
                if !ascending(l) {
                    return bad("Unsorted");
                }
                if l.iter().any(|d| !delivered.contains(d)) {
                    return bad("NoDelivery");
                }
            }
        }
    }
    None
}

/// The first instant that is not safe for f, and why; with it, the first instant at which two determinants in logs of processes that
/// are up, and in stable storage, are of one slot.
pub fn judge(n: usize, f: usize, es: &[Entry]) -> (Option<String>, Option<String>) {
    let (mut not_safe, mut slot) = (None, None);
    for t in 0..=es.len() {
        let past = &es[..t];
        let (mut down, mut lane) = (vec![false; n], vec![0; n]);
        let mut logs: Vec<BTreeSet<Det>> = vec![BTreeSet::new(); n];
        let mut stable = BTreeSet::new();
        let mut event: Vec<Option<(usize, usize)>> = vec![None; t];
        let mut own: Vec<Option<Det>> = vec![None; t];
        for (i, e) in past.iter().enumerate() {
            match e {
                Entry::Send { from, .. } => event[i] = Some((*from, lane[*from])),
                Entry::Deliver { to, send, rsn, listed } => {
                    event[i] = Some((*to, lane[*to]));
                    logs[*to].extend(listed);
                    let Entry::Send { from, ssn, .. } = &past[*send] else { unreachable!() };
                    own[i] = Some(det(*from as u8, *ssn as u8, *to as u8, *rsn as u8));
                }
                Entry::Stable(d) => {
                    stable.insert(*d);
                }
                Entry::Crash(p) => {
                    down[*p] = true;
                    logs[*p].clear();
                }
                Entry::Restart(p, l) => {
                    down[*p] = false;
                    lane[*p] += 1;
                    logs[*p] = l.iter().copied().collect();
                }
                Entry::Forget(p, l) => l.iter().for_each(|d| {
                    logs[*p].remove(d);
                }),
            }
        }
        if slot.is_none() {
            let all: BTreeSet<Det> = logs.iter().flatten().copied().chain(stable.iter().copied()).collect();
            let all: Vec<Det> = all.into_iter().collect();
            for (i, a) in all.iter().enumerate() {
                for c in &all[i + 1..] {
                    if same_slot(*a, *c) {
                        slot = Some(format!("slot instant={t} {} {}", show(*a), show(*c)));
                    }
                }
            }
        }
        if not_safe.is_some() {
            continue;
        }
        let bad = down.iter().filter(|&&x| x).count();
        if bad > f {
            not_safe = Some(format!("exceeded instant={t}"));
            continue;
        }
        'k: for k in 0..t {
            let Some(d) = own[k] else { continue };
            if stable.contains(&d) {
                continue;
            }
            // what k reaches: onward, since each event is preceded by earlier ones alone
            let mut reached = vec![false; t];
            reached[k] = true;
            for j in k + 1..t {
                if event[j].is_some() {
                    reached[j] = (k..j).any(|i| reached[i] && (event[i] == event[j] || matches!(&past[j], Entry::Deliver { send, .. } if *send == i)));
                }
            }
            for p in (0..n).filter(|&p| !down[p]) {
                if !(0..t).any(|i| reached[i] && event[i] == Some((p, lane[p]))) {
                    continue;
                }
                for crash in 0u32..1 << n {
                    let within = (0..n).all(|q| !down[q] || crash >> q & 1 == 1);
                    if within && crash.count_ones() as usize <= f && crash >> p & 1 == 0 && (0..n).all(|q| crash >> q & 1 == 1 || !logs[q].contains(&d)) {
                        not_safe = Some(format!("orphan instant={t} delivery={k} orphan={p}"));
                        break 'k;
                    }
                }
            }
        }
    }
    (not_safe, slot)
}
