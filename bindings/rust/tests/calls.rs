//! Calls whose answers are worked out by hand: the tables of examples/README.md and of docs/FORMAT.md.
use nixu::{
    Arrival, Audit, Breach, Cause, CauseKind, Closest, Copies, Determinant, Entry, Error, Event, Fault, FaultKind, Loss, LostBy, MergeFault,
    MergeFaultKind, Reader, Reason, Stray, Straying, Trace, Verdict,
};
use std::thread;

fn example(name: &str) -> Vec<u8> {
    std::fs::read(format!("{}/../../examples/{name}", env!("CARGO_MANIFEST_DIR"))).unwrap()
}

#[test]
fn the_version_is_that_of_the_header() {
    assert_eq!(nixu::version(), nixu::VERSION);
}

#[test]
fn an_orphan_is_told() {
    let verdict = Verdict::Orphan { instant: 6, delivery: 1, crash: vec![1, 2], orphan: 0 };
    assert_eq!(nixu::audit(&example("ring.jsonl"), 2), Ok(Audit { entries: 6, deliveries: 3, verdict }));
}

#[test]
fn too_many_down_are_told() {
    let told = nixu::audit(&example("crashes.jsonl"), 1).unwrap();
    assert_eq!(told.verdict, Verdict::Exceeded { instant: 8, down: vec![1, 2] });
}

#[test]
fn several_numbers_of_faults_are_told_in_their_order() {
    let told = nixu::audit_each(&example("ring.jsonl"), &[2, 0, 1]).unwrap();
    let accepted: Vec<bool> = told.iter().map(|told| told.verdict == Verdict::Accepted).collect();
    assert_eq!(accepted, [false, true, true]);
}

#[test]
fn a_fault_is_told_by_each_call() {
    let text = example("skipped.jsonl");
    let fault = Error::Fault(Fault { line: 2, kind: FaultKind::WrongSsn });
    assert_eq!(nixu::audit(&text, 0), Err(fault.clone()));
    assert_eq!(nixu::audit_each(&text, &[0, 1]), Err(fault.clone()));
    assert_eq!(nixu::audit_each(&text, &[]), Err(fault.clone()));
    assert_eq!(nixu::line(&text, 0), Err(fault.clone()));
    assert_eq!(nixu::explain(&text, 0), Err(fault.clone()));
    assert_eq!(nixu::draw(&text, 0), Err(fault.clone()));
    assert_eq!(fault.to_string(), "line 2: the send sequence number is not the next one");
}

#[test]
fn a_text_of_no_bytes_is_cut() {
    assert_eq!(nixu::audit(b"", 0), Err(Error::Fault(Fault { line: 1, kind: FaultKind::Cut })));
}

#[test]
fn no_number_of_faults_may_be_asked_for() {
    assert_eq!(nixu::audit_each(&example("ring.jsonl"), &[]), Ok(vec![]));
}

#[test]
fn what_is_shown_is_what_stands_beside_the_examples() {
    let text = example("orphan.jsonl");
    assert_eq!(nixu::line(&text, 1).unwrap(), "orphan f=1 instant=4 delivery=1 crash=1 orphan=2\n");
    assert_eq!(nixu::explain(&text, 1).unwrap().as_bytes(), example("orphan.txt"));
    assert_eq!(nixu::draw(&text, 1).unwrap().as_bytes(), example("orphan.svg"));
}

#[test]
fn each_fault_has_a_sentence_of_its_own() {
    let mut sentences: Vec<String> = FaultKind::ALL.iter().map(FaultKind::to_string).collect();
    sentences.sort();
    sentences.dedup();
    assert_eq!(sentences.len(), FaultKind::ALL.len());
    assert!(!sentences.contains(&"a fault of another version".to_string()));
}

#[test]
fn threads_may_call_side_by_side() {
    let text = example("ring.jsonl");
    let wanted = nixu::explain(&text, 2).unwrap();
    let is_told = || (0..200).all(|_| nixu::explain(&text, 2).as_ref() == Ok(&wanted));
    thread::scope(|scope| {
        let threads: Vec<_> = (0..4).map(|_| scope.spawn(is_told)).collect();
        assert!(threads.into_iter().all(|thread| thread.join().unwrap()));
    });
}

#[test]
fn a_reader_stands_for_all_that_it_was_fed() {
    let text = example("ring.jsonl");
    let mut reader = Reader::new().unwrap();
    for byte in text.chunks(1) {
        assert_eq!(reader.feed(byte), Ok(()));
    }
    let told = reader.finish_each(&[2, 1]).unwrap();
    let verdict = Verdict::Orphan { instant: 6, delivery: 1, crash: vec![1, 2], orphan: 0 };
    let accepted = Audit { entries: 6, deliveries: 3, verdict: Verdict::Accepted };
    assert_eq!(told, [Audit { entries: 6, deliveries: 3, verdict }, accepted]);
}

#[test]
fn a_reader_tells_a_fault_at_its_line_and_is_closed_then() {
    let text = example("skipped.jsonl");
    let second_line = text.iter().enumerate().filter(|(_, byte)| **byte == b'\n').nth(1).unwrap().0;
    let mut reader = Reader::new().unwrap();
    assert_eq!(reader.feed(&text[..second_line]), Ok(()));
    let fault = Error::Fault(Fault { line: 2, kind: FaultKind::WrongSsn });
    assert_eq!(reader.feed(&text[second_line..=second_line]), Err(fault));
    assert_eq!(reader.feed(b""), Err(Error::Closed));
    assert_eq!(reader.finish(0), Err(Error::Closed));
}

#[test]
fn a_text_that_does_not_end_is_cut() {
    let reader = Reader::new().unwrap();
    assert_eq!(reader.finish(0), Err(Error::Fault(Fault { line: 1, kind: FaultKind::Cut })));
}

/// The entries of orphan.jsonl.
fn orphaned() -> Trace {
    let own = |source, dest| vec![Determinant { source, ssn: 0, dest, rsn: 0 }];
    let mut trace = Trace::new(3).unwrap();
    for entry in [
        Entry::Send { from: 0, to: 1, ssn: 0 },
        Entry::Deliver { to: 1, send: 0, rsn: 0, listed: own(0, 1) },
        Entry::Send { from: 1, to: 2, ssn: 0 },
        Entry::Deliver { to: 2, send: 2, rsn: 0, listed: own(1, 2) },
    ] {
        trace.push(&entry).unwrap();
    }
    trace
}

#[test]
fn a_trace_is_that_of_its_entries() {
    let mut trace = orphaned();
    let verdict = Verdict::Orphan { instant: 4, delivery: 1, crash: vec![1], orphan: 2 };
    assert_eq!(trace.audit(1), Ok(Audit { entries: 4, deliveries: 2, verdict }));
    assert_eq!(trace.text().unwrap().as_bytes(), example("orphan.jsonl"));
}

#[test]
fn what_stands_against_an_entry_is_told() {
    let mut trace = orphaned();
    let refused = |kind| Err(Error::Refused(kind));
    assert_eq!(trace.push(&Entry::Crash { who: 3 }), refused(FaultKind::NoProcess));
    assert_eq!(trace.push(&Entry::Send { from: 0, to: 1, ssn: 0 }), refused(FaultKind::WrongSsn));
    assert_eq!(trace.push(&Entry::Restart { who: 0, listed: vec![] }), refused(FaultKind::NotDown));
    assert_eq!(trace.text().unwrap().as_bytes(), example("orphan.jsonl"));
}

#[test]
fn a_trace_has_as_many_entries_as_it_may() {
    let two = b"[\"trace\",1,2]\n[\"send\",0,1,0]\n[\"send\",0,1,1]\n[\"end\",2]\n";
    let fault = Fault { line: 3, kind: FaultKind::TooLong };
    assert_eq!(Reader::within(1).unwrap().feed(two), Err(Error::Fault(fault)));
    for entries in [2, nixu::MOST_ENTRIES] {
        let mut reader = Reader::within(entries).unwrap();
        assert_eq!(reader.feed(two), Ok(()));
        assert_eq!(reader.finish(0).unwrap().entries, 2);
    }
    let mut trace = Trace::within(2, 1).unwrap();
    assert_eq!(trace.push(&Entry::Crash { who: 0 }), Ok(()));
    assert_eq!(trace.push(&Entry::Crash { who: 1 }), Err(Error::Refused(FaultKind::TooLong)));
}

#[test]
fn a_trace_has_1_to_16777216_entries() {
    for entries in [0, nixu::MOST_ENTRIES + 1] {
        assert_eq!(Reader::within(entries).err(), Some(Error::Entries));
        assert_eq!(Trace::within(2, entries).err(), Some(Error::Entries));
    }
}

#[test]
fn a_trace_has_1_to_256_processes() {
    assert_eq!(Trace::new(0).err(), Some(Error::Processes));
    assert_eq!(Trace::new(257).err(), Some(Error::Processes));
    assert_eq!(Trace::new(256).unwrap().text().unwrap(), "[\"trace\",2,256]\n[\"end\",0]\n");
}

fn event(process: u8, entry: u32) -> Event {
    Event { process, entry }
}

/// That of forgotten.txt, for one failure.
fn forgotten() -> Breach {
    Breach {
        determinant: Determinant { source: 0, ssn: 0, dest: 1, rsn: 0 },
        cause: Cause { process: 1, entry: 6, by: CauseKind::Forgetting },
        holders: vec![event(2, 3)],
        losses: vec![Loss { process: 1, entry: 6, by: LostBy::Forgetting }],
        down: vec![],
        chain: vec![event(1, 1), event(1, 2), event(2, 3), event(2, 4), event(0, 5)],
        unlisted: Some(Arrival { process: 0, entry: 5, send: 4 }),
        underway: None,
    }
}

#[test]
fn an_orphan_is_explained() {
    let told = nixu::explanation(&example("forgotten.jsonl"), 1).unwrap();
    let verdict = Verdict::Orphan { instant: 7, delivery: 1, crash: vec![2], orphan: 0 };
    assert_eq!(told.audit, Audit { entries: 7, deliveries: 3, verdict });
    assert_eq!((told.reason, told.straying), (Reason::Orphan(forgotten()), None));
}

#[test]
fn a_determinant_in_transit_is_explained() {
    match nixu::explanation(&example("transit.jsonl"), 1).unwrap().reason {
        Reason::Orphan(breach) => {
            assert_eq!(breach.cause, Cause { process: 2, entry: 4, by: CauseKind::Delivery { send: 3 } });
            assert_eq!(breach.underway, Some(Arrival { process: 3, entry: 5, send: 2 }));
        }
        other => panic!("{other:?}"),
    }
}

#[test]
fn an_excess_and_an_accepted_run_are_explained() {
    let told = nixu::explanation(&example("crashes.jsonl"), 1).unwrap();
    let cause = Cause { process: 2, entry: 7, by: CauseKind::Crash };
    assert_eq!(told.reason, Reason::Exceeded { cause, down: vec![event(1, 6), event(2, 7)] });
    let told = nixu::explanation(&example("ring.jsonl"), 0).unwrap();
    let closest = Closest { faults: 2, delivery: 1, instant: 6, orphan: 0 };
    assert_eq!(told.reason, Reason::Accepted(Some(closest)));
}

#[test]
fn a_stray_is_explained() {
    let told = nixu::explanation(&example("strayed.jsonl"), 1).unwrap();
    let stray = Stray { instant: 8, process: 1, rsn: 0, first: 2, second: 7 };
    let copies = |process, entry| Copies { logged: vec![event(process, entry)], stable: false };
    assert_eq!(told.straying, Some(Straying { stray, first: copies(2, 4), second: copies(1, 7) }));
    assert_eq!(told.reason, Reason::Accepted(None));
}

#[test]
fn open_handles_explain_what_they_have() {
    let wanted = nixu::explanation(&example("orphan.jsonl"), 1);
    assert_eq!(orphaned().explanation(1), wanted);
    let (text, mut reader) = (example("orphan.jsonl"), Reader::new().unwrap());
    assert_eq!(reader.explanation(1), Err(Error::NoHeader));
    reader.feed(&text[..text.len() - 1]).unwrap();
    assert_eq!(reader.explanation(1), wanted);
    reader.feed(b"\n").unwrap();
    assert_eq!(reader.explanation(1), wanted);
    assert_eq!(reader.finish(1), wanted.map(|told| told.audit));
}

#[test]
fn a_text_with_a_fault_is_not_explained() {
    let fault = Error::Fault(Fault { line: 2, kind: FaultKind::WrongSsn });
    assert_eq!(nixu::explanation(&example("skipped.jsonl"), 0), Err(fault));
}

/// More processes are down than a call first has room for.
#[test]
fn a_long_explanation_is_whole() {
    let mut trace = Trace::new(256).unwrap();
    for who in 0..100 {
        trace.push(&Entry::Crash { who }).unwrap();
    }
    let cause = Cause { process: 99, entry: 99, by: CauseKind::Crash };
    let down = (0..100).map(|who| event(who, u32::from(who))).collect();
    assert_eq!(trace.explanation(99).unwrap().reason, Reason::Exceeded { cause, down });
}

const FIRST: &[u8] = b"[\"recording\",0,1,2,4711]\n[\"send\",0,1764118000000001,1,0]\n";
const SECOND: &[u8] = b"[\"recording\",1,1,2,4711]\n[\"deliver\",1,1764118000000002,0,0,0,0,[[0,0,1,0]]]\n";

#[test]
fn recordings_are_merged() {
    let wanted = b"[\"trace\",1,2]\n[\"send\",0,1,0]\n[\"deliver\",1,0,0,[[0,0,1,0]]]\n[\"end\",2]\n";
    assert_eq!(nixu::merge(&[FIRST, SECOND]).unwrap(), wanted);
    assert_eq!(nixu::merge(&[SECOND, b"", FIRST]).unwrap(), wanted);
    assert_eq!(nixu::merge_within(&[FIRST, SECOND], 2).unwrap(), wanted);
    assert_eq!(nixu::merge_within(&[FIRST, SECOND], 0), Err(Error::Entries));
    assert_eq!(nixu::merge_within(&[FIRST, SECOND], nixu::MOST_ENTRIES + 1), Err(Error::Entries));
}

#[test]
fn the_first_fault_of_recordings_is_told() {
    let told = |recordings: &[&[u8]]| match nixu::merge(recordings) {
        Err(Error::Merge(fault)) => fault,
        other => panic!("{other:?}"),
    };
    let missing = MergeFaultKind::NoHeader { missing: vec![1] };
    assert_eq!(told(&[FIRST]), MergeFault { recording: 0, line: 3, kind: missing });
    assert_eq!(told(&[]), MergeFault { recording: 0, line: 1, kind: MergeFaultKind::NoHeader { missing: vec![] } });
    assert_eq!(told(&[FIRST, SECOND, FIRST]), MergeFault { recording: 2, line: 2, kind: MergeFaultKind::Twice });
    let header = &SECOND[..25];
    let delivered = |event: &str| [header, event.as_bytes()].concat();
    let wrong = delivered("[\"deliver\",1,1764118000000002,0,0,0,7,[]]\n");
    let kind = MergeFaultKind::WrongRsn { process: 1, given: 7, next: 0 };
    let fault = told(&[FIRST, &wrong]);
    assert_eq!(fault, MergeFault { recording: 1, line: 2, kind });
    assert_eq!(fault.to_string(), "line 2 of recording 1: the receive sequence number is not the next one");
    let unsent = delivered("[\"deliver\",1,1764118000000002,0,0,3,0,[]]\n");
    let kind = MergeFaultKind::NoSend { process: 1, source: 0, lane: 0, ssn: 3 };
    assert_eq!(told(&[FIRST, &unsent]), MergeFault { recording: 1, line: 2, kind });
    let unknown = delivered("[\"deliver\",1,1764118000000002,0,0,0,0,[[0,9,1,0]]]\n");
    let kind = MergeFaultKind::NoDelivery(Determinant { source: 0, ssn: 9, dest: 1, rsn: 0 });
    assert_eq!(told(&[FIRST, &unknown]), MergeFault { recording: 1, line: 2, kind });
    let twice = delivered("[\"deliver\",1,1764118000000002,0,0,0,0,[]]\n[\"deliver\",1,1764118000000003,0,0,0,1,[]]\n");
    let kind = MergeFaultKind::Doubled { process: 1, source: 0, ssn: 0 };
    assert_eq!(told(&[FIRST, &twice]), MergeFault { recording: 1, line: 3, kind });
    let broken = told(&[FIRST, b"no line\n"]);
    assert_eq!(broken, MergeFault { recording: 1, line: 1, kind: MergeFaultKind::Line(FaultKind::Syntax) });
}
