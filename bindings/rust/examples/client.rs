//! Does what a file of tasks asks for, and answers in the form that bindings/test compares with the program's answers: the form and the
//! words are those of ../c/client.c.
use nixu::{
    Audit, Breach, Cause, CauseKind, Closest, Copies, Determinant, Entry, Error, Event, Explanation, LostBy, MergeFaultKind, Reader,
    Reason, Stray, Trace, Verdict,
};
use std::io::{self, Write};

fn set(processes: &[u8]) -> String {
    match processes {
        [] => "-".into(),
        _ => processes.iter().map(u8::to_string).collect::<Vec<_>>().join(","),
    }
}

fn said(told: &Audit, f: u16) -> String {
    match &told.verdict {
        Verdict::Accepted => format!("accept f={f} entries={} deliveries={}\n", told.entries, told.deliveries),
        Verdict::Exceeded { instant, down } => format!("exceeded f={f} instant={instant} down={}\n", set(down)),
        Verdict::Orphan { instant, delivery, crash, orphan } => {
            format!("orphan f={f} instant={instant} delivery={delivery} crash={} orphan={orphan}\n", set(crash))
        }
    }
}

/// An error's line, where it is a fault.
fn or_fault(told: Result<String, Error>) -> Result<String, Error> {
    match told {
        Err(Error::Fault(fault)) => Ok(format!("fault line={} {:?}\n", fault.line, fault.kind)),
        _ => told,
    }
}

fn strayed(found: Option<Stray>) -> String {
    match found {
        None => "followed\n".into(),
        Some(Stray { instant, process, rsn, first, second }) => {
            format!("strayed instant={instant} process={process} rsn={rsn} first={first} second={second}\n")
        }
    }
}

fn caused(cause: &Cause) -> String {
    let by = match cause.by {
        CauseKind::Delivery { .. } => "deliver",
        CauseKind::Crash => "crash",
        CauseKind::Restart => "restart",
        CauseKind::Forgetting => "forget",
    };
    format!("cause line={} process={} by={by}\n", cause.entry + 2, cause.process)
}

fn events(word: &str, all: &[Event]) -> String {
    all.iter().map(|event| format!("{word} process={} line={}\n", event.process, event.entry + 2)).collect()
}

fn breach(breach: &Breach, instant: u32, delivery: u32, crash: &[u8], orphan: u8) -> String {
    let Determinant { source, ssn, dest, rsn } = breach.determinant;
    let mut out = format!("delivery line={} process={dest} source={source} ssn={ssn} rsn={rsn}\n", delivery + 2);
    out += &caused(&breach.cause);
    out += &format!("unstable line={}\n", instant + 1);
    out += &if breach.holders.is_empty() { "holder process=-\n".into() } else { events("holder", &breach.holders) };
    for loss in &breach.losses {
        let by = if loss.by == LostBy::Crash { "crash" } else { "forget" };
        out += &format!("loss process={} line={} by={by}\n", loss.process, loss.entry + 2);
    }
    out += &events("down", &breach.down);
    out.extend(crash.iter().map(|process| format!("crash process={process}\n")));
    out.extend(breach.chain.iter().map(|event| format!("chain line={} process={}\n", event.entry + 2, event.process)));
    out += &match breach.unlisted {
        Some(it) => format!("unlisted line={} send={} process={}\n", it.entry + 2, it.send + 2, it.process),
        None => "listed\n".into(),
    };
    if let Some(it) = breach.underway {
        out += &format!("underway send={} line={} process={}\n", it.send + 2, it.entry + 2, it.process);
    }
    out + &format!("orphan process={orphan}\n")
}

fn copied(delivery: u32, copies: &Copies) -> String {
    let line = |event: &Event| format!("logged delivery={delivery} process={} line={}\n", event.process, event.entry + 2);
    let stable = if copies.stable { format!("stable delivery={delivery}\n") } else { String::new() };
    copies.logged.iter().map(line).collect::<String>() + &stable
}

/// The lines of explain without their sentences.
fn facts(told: &Explanation, f: u16) -> String {
    let lines = match (&told.reason, &told.audit.verdict) {
        (Reason::Accepted(None), _) => "closest faults=-\n".into(),
        (Reason::Accepted(Some(Closest { faults, delivery, instant, orphan })), _) => {
            format!("closest faults={faults} line={} until={} orphan={orphan}\n", delivery + 2, instant + 1)
        }
        (Reason::Exceeded { cause, down }, _) => caused(cause) + &events("down", down),
        (Reason::Orphan(it), Verdict::Orphan { instant, delivery, crash, orphan }) => {
            breach(it, *instant, *delivery, crash, *orphan)
        }
        (Reason::Orphan(_), _) => "an orphan of another verdict\n".into(),
    };
    let strays = told.straying.iter().map(|it| {
        strayed(Some(it.stray)) + &copied(it.stray.first, &it.first) + &copied(it.stray.second, &it.second)
    });
    said(&told.audit, f) + &lines + &strays.collect::<String>()
}

fn kind_name(kind: &MergeFaultKind) -> String {
    match kind {
        MergeFaultKind::Line(kind) => format!("{kind:?}"),
        kind => format!("{kind:?}").split([' ', '(']).next().unwrap_or_default().into(),
    }
}

/// Recordings that are cut anywhere, into pieces of some bytes.
fn merged(text: &[u8]) -> Result<String, Error> {
    let pieces: Vec<&[u8]> = text.chunks(37).collect();
    match nixu::merge(&pieces) {
        Err(Error::Merge(fault)) => {
            let before = pieces[..fault.recording].concat().iter().filter(|byte| **byte == b'\n').count();
            Ok(format!("fault line={} {}\n", before + fault.line as usize, kind_name(&fault.kind)))
        }
        told => told.map(|text| String::from_utf8_lossy(&text).into_owned()),
    }
}

/// Of a text with a fault there is no picture.
fn drawn(text: &[u8], faults: u16) -> Result<String, Error> {
    match nixu::draw(text, faults) {
        Err(Error::Fault(_)) => Ok(String::new()),
        told => told,
    }
}

fn each(text: &[u8]) -> Result<String, Error> {
    let faults = [0, 1, 2, 3];
    match nixu::audit_each(text, &faults) {
        Ok(all) => Ok(all.iter().zip(faults).map(|(told, f)| said(told, f)).collect()),
        Err(error) => or_fault(Err(error)).map(|line| line.repeat(faults.len())),
    }
}

fn sentence(text: &[u8], faults: u16) -> Result<String, Error> {
    match nixu::audit(text, faults) {
        Err(Error::Fault(fault)) => Ok(fault.kind.to_string()),
        told => told.map(|_| String::new()),
    }
}

/// The text in pieces of many lengths.
fn fed(text: &[u8], faults: u16) -> Result<Audit, Error> {
    let mut reader = Reader::new()?;
    let (mut from, mut rest) = (text.len() as u32, text);
    while !rest.is_empty() {
        from = from.wrapping_mul(1_103_515_245).wrapping_add(12_345);
        let (piece, behind) = rest.split_at(rest.len().min((from >> 16 & 63) as usize));
        reader.feed(piece)?;
        rest = behind;
    }
    reader.finish(faults)
}

/// An entry of a file of entries, whose form ../c/entries.h tells.
fn entry(line: &str) -> Option<Entry> {
    let numbers: Vec<u32> = line.split(' ').map(str::parse).collect::<Result<_, _>>().ok()?;
    let [kind, ssn, rsn, send, source, dest, who, _]: [u32; 8] = numbers.get(..8)?.try_into().ok()?;
    let (source, dest, who) = (source as u8, dest as u8, who as u8);
    let determinant = |det: &[u32]| Determinant { source: det[0] as u8, ssn: det[1], dest: det[2] as u8, rsn: det[3] };
    let listed = numbers[8..].chunks(4).map(determinant).collect();
    match kind {
        0 => Some(Entry::Send { from: source, to: dest, ssn }),
        1 => Some(Entry::Deliver { to: dest, send, rsn, listed }),
        2 => Some(Entry::Stable(Determinant { source, ssn, dest, rsn })),
        3 => Some(Entry::Crash { who }),
        4 => Some(Entry::Restart { who, listed }),
        5 => Some(Entry::Forget { who, listed }),
        _ => None,
    }
}

/// The verdict's line and the trace's text, or what stands against an entry, at the line on which it would stand.
fn recorded(file: &str, faults: u16) -> Result<String, Error> {
    let mut lines = file.lines();
    let mut trace = Trace::new(lines.next().and_then(|line| line.parse().ok()).unwrap_or(0))?;
    for (i, line) in lines.enumerate() {
        match trace.push(&entry(line).ok_or(Error::OtherVersion)?) {
            Err(Error::Refused(kind)) => return Ok(format!("fault line={} {kind:?}\n", i + 2)),
            told => told?,
        }
    }
    let told = said(&trace.audit(faults)?, faults) + &strayed(trace.replays()?);
    Ok(told + &facts(&trace.explanation(faults)?, faults) + &trace.text()?)
}

fn answer(word: &str, text: &[u8], faults: u16) -> Result<String, Error> {
    match word {
        "line" => or_fault(nixu::line(text, faults)),
        "explain" => or_fault(nixu::explain(text, faults)),
        "draw" => drawn(text, faults),
        "audit" => or_fault(nixu::audit(text, faults).map(|told| said(&told, faults))),
        "each" => each(text),
        "replays" => or_fault(nixu::replays(text).map(strayed)),
        "facts" => or_fault(nixu::explanation(text, faults).map(|told| facts(&told, faults))),
        "merge" => merged(text),
        "fed" => or_fault(fed(text, faults).map(|told| said(&told, faults))),
        "entries" => recorded(&String::from_utf8_lossy(text), faults),
        _ => sentence(text, faults),
    }
}

fn main() -> Result<(), Box<dyn std::error::Error>> {
    let tasks = std::fs::read_to_string(std::env::args().nth(1).ok_or("usage: client TASKS")?)?;
    for task in tasks.lines() {
        let (word, faults, path) = match task.splitn(3, ' ').collect::<Vec<_>>()[..] {
            [word, faults, path] => (word, faults, path),
            _ => return Err(format!("no task: {task}").into()),
        };
        let told = answer(word, &std::fs::read(path)?, faults.parse()?)?;
        write!(io::stdout(), "{}\n{told}", told.len())?;
    }
    Ok(())
}
