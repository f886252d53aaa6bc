//! What is searched, and what has to be found.

/// Settings in which nothing may be wrong: all interleavings within these bounds, or random runs. `late`: questions, replies and what
/// storage says are in transit like messages, also those of rounds that were given up, and views are any numbers that were told.
pub const SHORT: &[&str] = &[
    "n=3 f=1 sends=3 deliveries=3 crashes=2 rounds=2 acks=1",
    "n=3 f=2 sends=2 deliveries=2 crashes=2 rounds=2 writes=1",
    "n=3 f=1 sends=2 deliveries=3 crashes=2 rounds=2 writes=1",
    "n=4 f=2 sends=2 deliveries=3 crashes=2 rounds=2",
    "n=2 f=1 sends=2 deliveries=2 crashes=2 rounds=2 writes=1 late",
    "n=3 f=1 sends=2 deliveries=2 crashes=2 rounds=3 late",
    "n=3 f=2 sends=2 deliveries=2 crashes=2 rounds=2 late",
    "n=3 f=2 sends=2 deliveries=3 crashes=3 rounds=4 any_give_up",
    "n=3 f=2 sends=2 deliveries=3 crashes=2 rounds=3 acks=2",
    "n=3 f=1 sends=2 deliveries=3 crashes=4 rounds=4 any_give_up",
    "n=2 f=1 sends=4 deliveries=5 crashes=4 rounds=5 any_give_up",
    "n=2 f=1 sends=2 deliveries=3 crashes=4 rounds=4 writes=1 any_give_up",
    "n=2 f=1 sends=2 deliveries=3 crashes=3 rounds=3 writes=2",
    "n=3 f=2 sends=12 deliveries=14 crashes=5 rounds=8 writes=2 acks=2 late self_sends runs=1000 steps=300 seed=1",
    "n=4 f=2 sends=16 deliveries=18 crashes=6 rounds=9 writes=3 acks=2 late runs=400 steps=300 seed=2",
    "n=5 f=3 sends=20 deliveries=22 crashes=7 rounds=12 writes=3 acks=3 late runs=200 steps=400 seed=3",
    "n=4 f=2 sends=26 deliveries=28 crashes=8 rounds=14 writes=3 acks=4 any_give_up self_sends runs=400 steps=300 seed=4",
];
pub const LONG: &[&str] = &[
    "n=3 f=1 sends=3 deliveries=4 crashes=3 rounds=4 any_give_up",
    "n=3 f=1 sends=4 deliveries=4 crashes=2 rounds=2",
    "n=3 f=2 sends=3 deliveries=4 crashes=3 rounds=3",
    "n=4 f=2 sends=2 deliveries=3 crashes=3 rounds=3",
    "n=4 f=3 sends=2 deliveries=2 crashes=3 rounds=2",
    "n=3 f=2 sends=2 deliveries=2 crashes=2 rounds=2 writes=1 any_give_up",
    "n=3 f=2 sends=2 deliveries=2 crashes=2 rounds=3 late",
    "n=3 f=2 sends=1 deliveries=2 crashes=2 rounds=2 writes=1 late",
    "n=3 f=1 sends=2 deliveries=2 crashes=3 rounds=3 late",
    "n=3 f=2 sends=12 deliveries=14 crashes=5 rounds=8 writes=2 acks=2 late self_sends runs=20000 steps=300 seed=5",
    "n=4 f=3 sends=16 deliveries=18 crashes=6 rounds=9 writes=3 acks=2 late runs=10000 steps=300 seed=6",
    "n=5 f=3 sends=26 deliveries=28 crashes=8 rounds=14 writes=3 acks=4 any_give_up self_sends runs=10000 steps=300 seed=7",
];

/// A rule that is dropped, and the shortest run in which that leaves an orphan, or two survivors of one slot. `bounds` are as tight as
/// that run; where its steps are given, no search finds it in a minute, and nobody has shown that there is no shorter one.
pub struct Dropped {
    pub rule: &'static str,
    pub kind: &'static str,
    pub bounds: &'static str,
    pub entries: usize,
    pub run: &'static str, // its steps, where no search finds it in time
}
impl Dropped {
    pub fn setting(&self) -> String {
        format!("{} rule={} only={}", self.bounds, self.rule, self.kind)
    }
}
pub const DROPPED: &[Dropped] = &[
    Dropped { rule: "stop_at_f", kind: "orphan", bounds: "n=3 f=1 sends=2 deliveries=2", entries: 4, run: "" },
    Dropped { rule: "count_receiver", kind: "orphan", bounds: "n=3 f=1 sends=3 deliveries=2", entries: 5, run: "" },
    Dropped { rule: "raise_no_floor", kind: "orphan", bounds: "n=3 f=1 sends=3 deliveries=3 crashes=1 rounds=1", entries: 8, run: "" },
    Dropped { rule: "raise_no_floor", kind: "slot", bounds: "n=3 f=1 sends=3 deliveries=3 crashes=1 rounds=1", entries: 8, run: "" },
    Dropped { rule: "raise_one_floor", kind: "slot", bounds: "n=3 f=2 sends=3 deliveries=3 crashes=3 rounds=2", entries: 11, run: "" },
    Dropped { rule: "restart_without_floors", kind: "orphan", bounds: "n=3 f=1 sends=3 deliveries=3 crashes=2 rounds=2", entries: 10, run: "" },
    Dropped { rule: "restart_without_floors", kind: "slot", bounds: "n=3 f=1 sends=3 deliveries=3 crashes=2 rounds=2", entries: 10, run: "" },
    Dropped { rule: "first_answer", kind: "orphan", bounds: "n=3 f=1 sends=3 deliveries=3 crashes=1 rounds=1", entries: 8, run: "" },
    Dropped { rule: "first_answer", kind: "slot", bounds: "n=3 f=1 sends=3 deliveries=3 crashes=1 rounds=1", entries: 8, run: "" },
    Dropped { rule: "all_but_one", kind: "orphan", bounds: "n=3 f=1 sends=3 deliveries=3 crashes=1 rounds=1", entries: 8, run: "" },
    Dropped { rule: "all_but_one", kind: "slot", bounds: "n=3 f=1 sends=3 deliveries=3 crashes=1 rounds=1", entries: 8, run: "" },
    Dropped { rule: "skip_crashed", kind: "slot", bounds: "n=3 f=2 sends=3 deliveries=3 crashes=2 rounds=1", entries: 9, run: "" },
    Dropped { rule: "skip_down", kind: "orphan", bounds: "n=3 f=2 sends=6 deliveries=4 crashes=3 rounds=2", entries: 15, run: "Send { p: 0, to: 2 }; Deliver { to: 2, source: 0, life: 0, ssn: 0 }; Send { p: 2, to: 0 }; Send { p: 2, to: 1 }; Crash { p: 2 }; Deliver { to: 1, source: 2, life: 0, ssn: 1 }; Send { p: 1, to: 0 }; Deliver { to: 0, source: 1, life: 0, ssn: 0 }; Crash { p: 1 }; Begin { s: 1, other: 0 }; SayNotUp { q: 2, s: 1 }; Send { p: 0, to: 2 }; Begin { s: 2, other: 0 }; Answer { y: 0, s: 2 }; Read { s: 2 }; Send { p: 0, to: 1 }; Restart { s: 2 }; Crash { p: 0 }; Read { s: 1 }; Restart { s: 1 }; Deliver { to: 1, source: 0, life: 0, ssn: 2 }" },
    Dropped { rule: "skip_down", kind: "slot", bounds: "n=3 f=2 sends=2 deliveries=2 crashes=2 rounds=2", entries: 8, run: "" },
    Dropped { rule: "keep_own_round", kind: "orphan", bounds: "n=3 f=2 sends=4 deliveries=4 crashes=2 rounds=2", entries: 12, run: "Send { p: 0, to: 1 }; Crash { p: 2 }; Begin { s: 2, other: 0 }; Answer { y: 0, s: 2 }; Deliver { to: 1, source: 0, life: 0, ssn: 0 }; Send { p: 1, to: 2 }; Answer { y: 1, s: 2 }; Crash { p: 1 }; Begin { s: 1, other: 0 }; Answer { y: 0, s: 1 }; SayNotUp { q: 2, s: 1 }; Read { s: 1 }; Restart { s: 1 }; Read { s: 2 }; Restart { s: 2 }; Deliver { to: 2, source: 1, life: 0, ssn: 0 }; Send { p: 2, to: 0 }; Deliver { to: 0, source: 2, life: 1, ssn: 0 }; Send { p: 0, to: 1 }; Deliver { to: 1, source: 0, life: 0, ssn: 1 }" },
    Dropped { rule: "keep_own_round", kind: "slot", bounds: "n=3 f=2 sends=2 deliveries=2 crashes=2 rounds=2", entries: 8, run: "" },
    Dropped { rule: "take_stale_word", kind: "orphan", bounds: "n=3 f=1 sends=3 deliveries=3 crashes=2 rounds=2", entries: 10, run: "" },
    Dropped { rule: "take_stale_word", kind: "slot", bounds: "n=3 f=1 sends=2 deliveries=2 crashes=2 rounds=2", entries: 8, run: "" },
    Dropped { rule: "guess_number", kind: "slot", bounds: "n=4 f=3 sends=3 deliveries=3 crashes=3 rounds=2", entries: 11, run: "Send { p: 3, to: 1 }; Send { p: 3, to: 1 }; Deliver { to: 1, source: 3, life: 0, ssn: 0 }; Send { p: 1, to: 2 }; Deliver { to: 2, source: 1, life: 0, ssn: 0 }; Crash { p: 1 }; Crash { p: 0 }; Begin { s: 1, other: 4 }; SayNotUp { q: 0, s: 1 }; Begin { s: 0, other: 0 }; Answer { y: 2, s: 0 }; Crash { p: 2 }; SayNotUp { q: 2, s: 1 }; Answer { y: 3, s: 1 }; Read { s: 1 }; Restart { s: 1 }; Deliver { to: 1, source: 3, life: 0, ssn: 1 }; Answer { y: 1, s: 0 }; Answer { y: 3, s: 0 }; Read { s: 0 }; Restart { s: 0 }" },
    Dropped { rule: "keep_given_up", kind: "slot", bounds: "n=3 f=2 sends=2 deliveries=2 crashes=2 rounds=3", entries: 8, run: "" },
    Dropped { rule: "count_old_answers", kind: "orphan", bounds: "n=3 f=2 sends=5 deliveries=4 crashes=2 rounds=2", entries: 12, run: "Send { p: 2, to: 1 }; Deliver { to: 1, source: 2, life: 0, ssn: 0 }; Send { p: 1, to: 0 }; Crash { p: 1 }; Deliver { to: 0, source: 1, life: 0, ssn: 0 }; Begin { s: 1, other: 0 }; Answer { y: 2, s: 1 }; Send { p: 2, to: 0 }; Send { p: 0, to: 2 }; Deliver { to: 2, source: 0, life: 0, ssn: 0 }; Send { p: 2, to: 1 }; Crash { p: 0 }; Begin { s: 1, other: 0 }; SayNotUp { q: 0, s: 1 }; Read { s: 1 }; Restart { s: 1 }; Deliver { to: 1, source: 2, life: 0, ssn: 2 }" },
    Dropped { rule: "count_old_answers", kind: "slot", bounds: "n=3 f=2 sends=2 deliveries=2 crashes=2 rounds=3", entries: 8, run: "" },
    Dropped { rule: "gather_own_only", kind: "orphan", bounds: "n=3 f=1 sends=3 deliveries=3 crashes=1 rounds=1", entries: 8, run: "" },
    Dropped { rule: "take_refused_acks", kind: "orphan", bounds: "n=3 f=2 sends=4 deliveries=5 crashes=2 rounds=2 acks=1", entries: 13, run: "Send { p: 2, to: 0 }; Deliver { to: 0, source: 2, life: 0, ssn: 0 }; Send { p: 0, to: 1 }; Deliver { to: 1, source: 0, life: 0, ssn: 0 }; Ack { y: 1, to: 2 }; Crash { p: 0 }; Crash { p: 1 }; Begin { s: 0, other: 0 }; Answer { y: 2, s: 0 }; SayNotUp { q: 1, s: 0 }; Read { s: 0 }; Restart { s: 0 }; Begin { s: 1, other: 0 }; Answer { y: 2, s: 1 }; Answer { y: 0, s: 1 }; Read { s: 1 }; Restart { s: 1 }; Deliver { to: 0, source: 2, life: 0, ssn: 0 }; Send { p: 0, to: 2 }; Deliver { to: 2, source: 0, life: 1, ssn: 0 }; TakeAck { y: 1, lane: 0, to: 2 }; Send { p: 2, to: 1 }; Deliver { to: 1, source: 2, life: 0, ssn: 1 }" },
    Dropped { rule: "ignore_named", kind: "slot", bounds: "n=2 f=1 sends=2 deliveries=2 crashes=1 rounds=1 writes=1", entries: 7, run: "" },
    Dropped { rule: "skip_storage", kind: "slot", bounds: "n=2 f=1 sends=2 deliveries=2 crashes=1 rounds=1 writes=1", entries: 7, run: "" },
    Dropped { rule: "read_first", kind: "slot", bounds: "n=2 f=1 sends=3 deliveries=3 crashes=1 rounds=1 writes=1", entries: 10, run: "" },
    Dropped { rule: "no_fence", kind: "slot", bounds: "n=2 f=1 sends=2 deliveries=2 crashes=2 rounds=2 writes=1", entries: 8, run: "" },
    Dropped { rule: "mark_early", kind: "slot", bounds: "n=2 f=1 sends=2 deliveries=2 crashes=1 rounds=1 writes=1", entries: 7, run: "" },
    Dropped { rule: "forget_early", kind: "orphan", bounds: "n=2 f=1 sends=1 deliveries=1 writes=1", entries: 3, run: "" },
    Dropped { rule: "forget_future", kind: "slot", bounds: "n=2 f=1 sends=2 deliveries=2 crashes=1 rounds=1 writes=1", entries: 8, run: "" },
    Dropped { rule: "reuse_lane", kind: "orphan", bounds: "n=2 f=1 sends=3 deliveries=3 crashes=2 rounds=2", entries: 10, run: "" },
    Dropped { rule: "declare_early", kind: "orphan", bounds: "n=3 f=1 sends=3 deliveries=3 crashes=1 rounds=1", entries: 8, run: "" },
    Dropped { rule: "declare_early", kind: "slot", bounds: "n=3 f=1 sends=3 deliveries=3 crashes=1 rounds=1", entries: 8, run: "" },
    Dropped { rule: "lose_stored", kind: "slot", bounds: "n=2 f=1 sends=2 deliveries=2 crashes=1 rounds=1 writes=1", entries: 7, run: "" },
    Dropped { rule: "reuse_round_name", kind: "slot", bounds: "n=3 f=2 sends=2 deliveries=2 crashes=2 rounds=3 late", entries: 8, run: "Send { p: 0, to: 1 }; Send { p: 0, to: 1 }; Crash { p: 2 }; Begin { s: 2 }; Answer { y: 0, s: 2 }; Deliver { to: 1, source: 0, life: 0, ssn: 0 }; Answer { y: 1, s: 2 }; Crash { p: 1 }; Begin { s: 1 }; Answer { y: 0, s: 1 }; TakeReply { s: 1, from: 0 }; SayNotUp { q: 2, s: 1 }; TakeReply { s: 1, from: 2 }; Read { s: 1 }; Fence { s: 1 }; TakeRead { s: 1 }; Restart { s: 1 }; Begin { s: 2 }; TakeReply { s: 2, from: 0 }; TakeReply { s: 2, from: 1 }; Read { s: 2 }; Fence { s: 2 }; TakeRead { s: 2 }; Restart { s: 2 }; Deliver { to: 1, source: 0, life: 0, ssn: 1 }" },
];
