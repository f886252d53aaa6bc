//! A model checker for the protocol between nodes: see ../README.md. Arguments:
//!
//!     nodes check [long] [threads=2]     the settings and the rules of tables.rs, each with its outcome; status 1 if one is not as it has to be
//!     nodes traces FOLDER                the run of each rule, as a trace and as its steps
//!     nodes search|walk KEY=VALUE ..     one setting, by hand
//!     nodes replay KEY=VALUE ..          the steps on standard input, as `traces` prints them, without those that are not needed
mod audit;
mod invariant;
mod search;
mod state;
mod steps;
mod tables;

use search::{Found, Run, Setting};
use state::{Bounds, Counts};
use steps::{Action, Rules};
use std::sync::atomic::{AtomicUsize, Ordering::SeqCst};
use std::sync::Mutex;
use std::time::Instant;

/// A setting that is written as words: `n=3 f=2 sends=2 .. any_give_up late rule=A,B only=orphan`.
fn setting(words: &str) -> Setting {
    let max = Counts::default();
    let mut s = Setting {
        bounds: Bounds { n: 3, f: 1, max, self_sends: false, any_give_up: false, late: false, invariant: true, prune: true, shown: false },
        rules: Rules::default(),
        only: "",
    };
    for word in words.split_whitespace() {
        let (key, value) = word.split_once('=').unwrap_or((word, "1"));
        let number = || value.parse::<u8>().unwrap_or_else(|_| panic!("{word} has no number"));
        let b = &mut s.bounds;
        match key {
            "n" => b.n = number() as usize,
            "f" => b.f = number() as u32,
            "sends" => b.max.sends = number(),
            "deliveries" => b.max.deliveries = number(),
            "crashes" => b.max.crashes = number(),
            "rounds" => b.max.rounds = number(),
            "writes" => b.max.writes = number(),
            "acks" => b.max.acks = number(),
            "self_sends" => b.self_sends = true,
            "any_give_up" => b.any_give_up = true,
            "late" => (b.late, b.any_give_up) = (true, true),
            "only" => s.only = ["orphan", "slot"].into_iter().find(|k| *k == value).unwrap(),
            "rule" => {
                // a rule is dropped: only what a trace shows is wrong, and what nobody can take may be taken now
                (b.invariant, b.prune, b.shown) = (false, false, true);
                for rule in value.split(',') {
                    assert!(s.rules.set(rule), "no rule {rule} in {:?}", Rules::NAMES);
                }
            }
            "variant" => assert!(s.rules.set(value), "no variant {value} in {:?}", Rules::NAMES),
            "unpruned" => b.prune = false,
            "runs" | "steps" | "seed" | "seconds" | "states" | "threads" => {}
            _ => panic!("no key {key}"),
        }
    }
    s
}

fn number(words: &str, key: &str, else_: u64) -> u64 {
    words.split_whitespace().find_map(|w| w.strip_prefix(key)?.strip_prefix('=')).map_or(else_, |v| v.parse().unwrap())
}

/// Steps as Debug writes them, separated by semicolons or lines.
fn steps_of(text: &str) -> Vec<Action> {
    let mut out = vec![];
    for line in text.split([';', '\n']) {
        let Some((name, rest)) = line.split_once('{') else { continue };
        let value = |key: &str| rest.trim_end_matches([' ', '}']).split(',').find_map(|x| x.split_once(':').filter(|(k, _)| k.trim() == key)).map_or(0, |(_, v)| v.trim().parse::<u16>().unwrap());
        let g = |key: &str| value(key) as u8;
        out.push(match name.trim() {
            "Send" => Action::Send { p: g("p"), to: g("to") },
            "Deliver" => Action::Deliver { to: g("to"), source: g("source"), life: g("life"), ssn: g("ssn") },
            "Crash" => Action::Crash { p: g("p"), uncounted: g("uncounted") },
            "Begin" => Action::Begin { s: g("s"), other: g("other") },
            "Answer" => Action::Answer { y: g("y"), s: g("s"), round: g("round") },
            "SayNotUp" => Action::SayNotUp { q: g("q"), s: g("s"), round: g("round") },
            "TakeReply" => Action::TakeReply { s: g("s"), from: g("from"), which: g("which") },
            "Read" => Action::Read { s: g("s") },
            "Fence" => Action::Fence { s: g("s"), round: g("round") },
            "TakeRead" => Action::TakeRead { s: g("s"), which: g("which") },
            "Restart" => Action::Restart { s: g("s") },
            "Write" => Action::Write { p: g("p") },
            "Store" => Action::Store { source: g("source"), lane: g("lane"), d: value("d") },
            "Confirm" => Action::Confirm { p: g("p"), d: value("d") },
            "Forget" => Action::Forget { p: g("p") },
            "Ack" => Action::Ack { y: g("y"), to: g("to") },
            "TakeAck" => Action::TakeAck { y: g("y"), lane: g("lane"), to: g("to") },
            "Lose" => Action::Lose { d: value("d") },
            other => panic!("no step {other}"),
        });
    }
    out
}

fn shown(run: &Run) -> String {
    let mut s = format!("{} steps, {} entries: {}\n", run.steps.len(), run.events.len(), run.wrong.as_deref().unwrap_or("nothing wrong"));
    run.steps.iter().for_each(|a| s += &format!("  {a:?}\n"));
    s
}

/// The run of a rule of the table: found by a search, or given there.
fn run_of(rule: &tables::Dropped) -> (Option<Run>, usize) {
    let s = setting(&rule.setting());
    if rule.run.is_empty() {
        match s.search(true, 6_000_000, 600.0) {
            Found::Wrong { run, states } => (Some(run), states),
            _ => (None, 0),
        }
    } else {
        let (run, left_out) = s.replay(&steps_of(rule.run));
        (Some(run).filter(|run| run.wrong.is_some() && left_out == 0), 0)
    }
}

/// One line of what came of a part, and whether it is as it has to be.
fn judge_rule(rule: &tables::Dropped) -> (String, bool) {
    let (run, states) = run_of(rule);
    let what = format!("{} ({})", rule.rule, rule.kind);
    let Some(run) = run else { return (format!("{what}: no run is wrong"), false) };
    let n = setting(&rule.setting()).bounds.n;
    let f = setting(&rule.setting()).bounds.f;
    let entries = audit::entries(&run.events);
    let (orphan, slot) = audit::judge(n, f as usize, &entries);
    let agreed = audit::fault(n, &entries).is_none() && if rule.kind == "orphan" { orphan.is_some() } else { slot.is_some() };
    // with the rule the same run ends before it is wrong
    let mut whole = setting(&rule.setting());
    whole.rules = Rules::default();
    let kept = whole.replay(&run.steps).0.wrong.is_none();
    let how = if rule.run.is_empty() { format!("found among {states} states") } else { "by the run of the table".into() };
    (format!("{what}: wrong after {} entries, {how}", entries.len()), agreed && kept && entries.len() == rule.entries)
}

fn judge_setting(words: &str) -> (String, bool) {
    let s = setting(words);
    if words.contains("runs=") {
        let (counted, wrong) = s.walk(number(words, "runs", 1000), number(words, "steps", 120) as usize, number(words, "seed", 1), 1e9);
        let text = format!("{words}: {counted:?}");
        return match wrong {
            None => (text, true),
            Some(run) => (text + "\n" + &shown(&run), false),
        };
    }
    match s.search(false, number(words, "states", 20_000_000) as usize, 1e9) {
        Found::Nothing { states, steps, depth, finals } => (format!("{words}: all {states} states, {steps} steps, {finals} ends, depth {depth}: nothing wrong"), true),
        Found::Stopped { states, depth } => (format!("{words}: stopped after {states} states at depth {depth}"), false),
        Found::Wrong { .. } => match s.search(true, usize::MAX, 1e9) {
            Found::Wrong { run, .. } => (format!("{words}: WRONG\n{}", shown(&run)), false),
            _ => (format!("{words}: WRONG"), false),
        },
    }
}

fn check(long: bool, threads: usize) -> bool {
    enum Part {
        Setting(&'static str),
        Rule(&'static tables::Dropped),
    }
    let settings = tables::SHORT.iter().chain(if long { tables::LONG } else { &[] });
    let parts: Vec<Part> = settings.map(|s| Part::Setting(s)).chain(tables::DROPPED.iter().map(Part::Rule)).collect();
    let (next, bad, lines) = (AtomicUsize::new(0), AtomicUsize::new(0), Mutex::new(()));
    std::thread::scope(|scope| {
        for _ in 0..threads {
            scope.spawn(|| {
                while let Some(part) = parts.get(next.fetch_add(1, SeqCst)) {
                    let begun = Instant::now();
                    let (text, right) = match part {
                        Part::Setting(words) => judge_setting(words),
                        Part::Rule(rule) => judge_rule(rule),
                    };
                    bad.fetch_add(!right as usize, SeqCst);
                    let _one_at_a_time = lines.lock();
                    println!("{} {text} ({:.1} s)", if right { "ok  " } else { "BAD " }, begun.elapsed().as_secs_f64());
                }
            });
        }
    });
    println!("nodes: {} parts, {} wrong", parts.len(), bad.load(SeqCst));
    bad.load(SeqCst) == 0
}

fn traces(folder: &str) {
    for rule in tables::DROPPED {
        let s = setting(&rule.setting());
        let Some(run) = run_of(rule).0 else { panic!("no run for {}", rule.rule) };
        let entries = audit::entries(&run.events);
        std::fs::write(format!("{folder}/{}-{}.jsonl", rule.rule, rule.kind), audit::text(s.bounds.n, &entries)).unwrap();
        println!("{} {} n={} f={} {:?}\n{}", rule.rule, rule.kind, s.bounds.n, s.bounds.f, audit::judge(s.bounds.n, s.bounds.f as usize, &entries), shown(&run));
    }
}

fn main() {
    let args: Vec<String> = std::env::args().skip(1).collect();
    let words = args[1..].join(" ");
    let right = match args[0].as_str() {
        "check" => check(words.contains("long"), number(&words, "threads", 2) as usize),
        "traces" => {
            traces(&args[1]);
            true
        }
        "search" if words.contains("rule=") => match setting(&words).search(true, number(&words, "states", 10_000_000) as usize, number(&words, "seconds", 600) as f64) {
            Found::Wrong { run, states } => {
                println!("{states} states\n{}", shown(&run));
                false
            }
            Found::Nothing { states, .. } => {
                println!("all {states} states: nothing wrong");
                true
            }
            Found::Stopped { states, depth } => {
                println!("stopped after {states} states at depth {depth}");
                true
            }
        },
        "search" | "walk" => {
            let (text, right) = judge_setting(&words);
            println!("{text}");
            right
        }
        "replay" => {
            let s = setting(&words);
            let (run, left_out) = s.replay(&steps_of(&std::io::read_to_string(std::io::stdin()).unwrap()));
            println!("{left_out} left out\n{}", shown(&s.shrink(&run.steps)));
            true
        }
        other => panic!("check, traces, search, walk or replay, not {other}"),
    };
    std::process::exit(!right as i32);
}
