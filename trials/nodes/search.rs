//! The searches: all states by breadth, random runs, and a given run step by step.
use crate::audit;
use crate::state::*;
use crate::steps::{Action, Rules};
use std::collections::{HashMap, HashSet};
use std::hash::{BuildHasherDefault, Hasher};
use std::time::Instant;

#[derive(Default)]
struct Low(u64);
impl Hasher for Low {
    fn finish(&self) -> u64 {
        self.0
    }
    fn write(&mut self, _: &[u8]) {
        unreachable!()
    }
    fn write_u128(&mut self, k: u128) {
        self.0 = k as u64;
    }
}
type ByLow = BuildHasherDefault<Low>;

/// What is looked for: any wrong state or step (""), or what begins so: "orphan", "slot".
#[derive(Clone, Copy, Debug)]
pub struct Setting {
    pub bounds: Bounds,
    pub rules: Rules,
    pub only: &'static str,
}

/// A run: its steps, what they recorded, and what is wrong after the last one.
pub struct Run {
    pub steps: Vec<Action>,
    pub events: Vec<Event>,
    pub wrong: Option<String>,
}

pub enum Found {
    Nothing { states: usize, steps: u64, depth: usize, finals: u64 },
    Wrong { run: Run, states: usize },
    Stopped { states: usize, depth: usize },
}

impl Setting {
    fn wrong_after(&self, s: &State, a: &Action, t: &State, events: &[Event]) -> Option<String> {
        let (old, new);
        let (s, t) = if t.packets.is_empty() && s.packets.is_empty() {
            (s, t)
        } else {
            (old, new) = (s.settled(), t.settled());
            (&old, &new)
        };
        let b = &self.bounds;
        let mut wrong = t.breach(b.f, b.shown);
        if b.invariant {
            wrong = wrong.or_else(|| t.broken_clause(b)).or_else(|| s.illegal_step(a, t, events));
        }
        wrong.filter(|w| w.starts_with(self.only))
    }

    /// All states that are reached within the bounds, by breadth: the first that is wrong ends a shortest run.
    pub fn search(&self, paths: bool, most_states: usize, seconds: f64) -> Found {
        let begun = Instant::now();
        let mut seen: HashSet<u128, ByLow> = HashSet::default();
        let mut parents: HashMap<u128, (u128, Action), ByLow> = HashMap::default();
        let start = State::start(self.bounds.n);
        let first = start.key();
        let mut level = vec![start];
        if paths {
            parents.insert(first, (first, Action::Read { s: 0 }));
        } else {
            seen.insert(first);
        }
        let (mut steps, mut depth, mut finals) = (0u64, 0, 0u64);
        let mut events = vec![];
        while !level.is_empty() {
            let mut next = vec![];
            for s in level.drain(..) {
                let from = if paths { s.key() } else { 0 };
                let mut any = false;
                for a in s.actions(&self.rules, &self.bounds) {
                    events.clear();
                    let Some(t) = s.step(&a, &self.rules, &self.bounds, &mut events) else { continue };
                    steps += 1;
                    any = true;
                    let key = t.key();
                    let new = if !paths {
                        seen.insert(key)
                    } else if parents.contains_key(&key) {
                        false
                    } else {
                        parents.insert(key, (from, a));
                        true
                    };
                    if !new {
                        continue;
                    }
                    if self.wrong_after(&s, &a, &t, &events).is_some() {
                        let mut path = vec![a];
                        let mut at = from;
                        while paths && at != first {
                            let (before, a) = parents[&at];
                            path.push(a);
                            at = before;
                        }
                        path.reverse();
                        return Found::Wrong { run: self.replay(&path).0, states: seen.len() + parents.len() };
                    }
                    next.push(t);
                }
                finals += !any as u64;
            }
            depth += 1;
            level = next;
            let states = seen.len() + parents.len();
            if states > most_states || begun.elapsed().as_secs_f64() > seconds {
                return Found::Stopped { states, depth };
            }
        }
        Found::Nothing { states: seen.len() + parents.len(), steps, depth, finals }
    }

    /// The run of those of these steps that are possible, up to the first that is wrong; and how many were not possible.
    pub fn replay(&self, path: &[Action]) -> (Run, usize) {
        let mut s = State::start(self.bounds.n);
        let mut run = Run { steps: vec![], events: vec![], wrong: None };
        let mut left_out = 0;
        for a in path {
            let mut new = vec![];
            let Some(t) = s.step(a, &self.rules, &self.bounds, &mut new) else {
                left_out += 1;
                continue;
            };
            run.steps.push(*a);
            run.wrong = self.wrong_after(&s, a, &t, &new);
            run.events.extend(new);
            s = t;
            if run.wrong.is_some() {
                break;
            }
        }
        (run, left_out)
    }

    /// Leaves out steps as long as something is still wrong in the same way.
    pub fn shrink(&self, path: &[Action]) -> Run {
        let kind = |run: &Run| run.wrong.as_ref().map(|w| w.split(' ').next().unwrap().to_string());
        let mut best = self.replay(path).0;
        let like = kind(&best);
        let mut size = (best.steps.len() / 2).max(1);
        while like.is_some() {
            let (mut any, mut i) = (false, 0);
            while i < best.steps.len() {
                let mut trial = best.steps.clone();
                trial.drain(i..(i + size).min(best.steps.len()));
                let run = self.replay(&trial).0;
                if kind(&run) == like && run.steps.len() < best.steps.len() {
                    (best, any) = (run, true);
                } else {
                    i += size;
                }
            }
            if !any && size == 1 {
                break;
            }
            size = if any { size } else { size / 2 };
        }
        best
    }

    /// Random runs of so many steps, each with its own weights of the kinds of steps. Each run's trace is judged by the plain audit
    /// too. The result counts runs, steps, entries, restarts and runs with two that gather at once.
    pub fn walk(&self, runs: u64, steps: usize, seed: u64, seconds: f64) -> (Counted, Option<Run>) {
        let begun = Instant::now();
        let mut counted = Counted::default();
        for run in 0..runs {
            if begun.elapsed().as_secs_f64() > seconds {
                break;
            }
            let mut r = Random((seed.wrapping_mul(0x9e3779b97f4a7c15) ^ (run + 1).wrapping_mul(0xd1342543de82ef95)) | 1);
            for _ in 0..8 {
                r.next();
            }
            let mut weights: HashMap<std::mem::Discriminant<Action>, u64> = HashMap::new();
            let mut s = State::start(self.bounds.n);
            let (mut path, mut events, mut two) = (vec![], vec![], false);
            for _ in 0..steps {
                let actions = s.actions(&self.rules, &self.bounds);
                let mut kinds: Vec<std::mem::Discriminant<Action>> = vec![];
                for a in &actions {
                    let kind = std::mem::discriminant(a);
                    if !kinds.contains(&kind) {
                        kinds.push(kind);
                        let most = match a {
                            Action::Crash { .. } => 4,
                            Action::Send { .. } => 8,
                            Action::Begin { .. } if self.bounds.late => 1,
                            _ => 16,
                        };
                        weights.entry(kind).or_insert_with(|| [1, 2, 4, 8, 16][r.below(5) as usize].min(most));
                    }
                }
                if kinds.is_empty() {
                    break;
                }
                let mut x = r.below(kinds.iter().map(|k| weights[k]).sum());
                let kind = *kinds.iter().find(|k| if x < weights[k] { true } else { x -= weights[k]; false }).unwrap();
                let of_kind: Vec<&Action> = actions.iter().filter(|a| std::mem::discriminant(*a) == kind).collect();
                let a = *of_kind[r.below(of_kind.len() as u64) as usize];
                let mut new = vec![];
                let Some(t) = s.step(&a, &self.rules, &self.bounds, &mut new) else { continue };
                counted.steps += 1;
                path.push(a);
                let wrong = self.wrong_after(&s, &a, &t, &new);
                events.extend(new);
                s = t;
                two |= s.nodes.iter().filter(|x| x.present_round().is_some()).count() > 1;
                if wrong.is_some() {
                    return (counted, Some(self.shrink(&path)));
                }
            }
            let entries = audit::entries(&events);
            let judged = audit::judge(self.bounds.n, self.bounds.f as usize, &entries);
            let fault = audit::fault(self.bounds.n, &entries);
            if fault.is_some() || (self.only.is_empty() && judged != (None, None)) {
                let wrong = Some(format!("by the plain audit: {fault:?} {judged:?}"));
                return (counted, Some(Run { steps: path, events, wrong }));
            }
            counted.runs += 1;
            counted.two_gather += two as u64;
            counted.restarts += events.iter().filter(|e| matches!(e, Event::Restart(..))).count() as u64;
            counted.entries += events.len() as u64;
        }
        (counted, None)
    }
}

#[derive(Default, Debug)]
pub struct Counted {
    pub runs: u64,
    pub steps: u64,
    pub entries: u64,
    pub restarts: u64,
    pub two_gather: u64,
}

struct Random(u64);
impl Random {
    fn next(&mut self) -> u64 {
        self.0 ^= self.0 << 13;
        self.0 ^= self.0 >> 7;
        self.0 ^= self.0 << 17;
        self.0.wrapping_mul(0x2545f4914f6cdd1d) >> 11
    }
    fn below(&mut self, n: u64) -> u64 {
        self.next() % n
    }
}
