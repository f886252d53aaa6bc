//! Nodes: bytes and lines that docs/WIRE.md and docs/MERGING.md have by hand, a recovery, and refusals.
use nixu::{Determinant, Error, Identity, Message, MessageName, Node, NodeFault, NodeState, Received, Resent, Sent, Stage};

/// The first message of process 0, to process 1, at clock 1000, with the body 7. It carries nothing.
const FIRST: [u8; 41] = [
    1, 0, 1, 2, 3, 4, 5, 6, 7, 8, 0, 3, 0, 1, 0, 1, 0, 0, 0, 0, 0, 0, 0, 0, 0, 0, 3, 232, 0, 0, 0, 0, 0, 0, 0, 0, 0, 0,
    0, 1, 7,
];

/// The first message of process 1, to process 2, at clock 1005. It carries that process 1 delivered the first one.
const SECOND: [u8; 51] = [
    1, 0, 1, 2, 3, 4, 5, 6, 7, 8, 0, 3, 0, 1, 1, 2, 0, 0, 0, 0, 0, 0, 0, 0, 0, 0, 3, 237, 0, 0, 0, 0, 0, 0, 0, 1, 0, 0,
    0, 0, 0, 1, 0, 0, 0, 0, 0, 0, 0, 0, 0,
];

/// Process 1, whose next lane is 1, asks process 2 in round 7, at clock 2000.
const QUESTION: [u8; 48] = [
    1, 2, 1, 2, 3, 4, 5, 6, 7, 8, 0, 3, 0, 1, 1, 2, 0, 0, 0, 1, 0, 0, 0, 0, 0, 0, 7, 208, 0, 0, 0, 0, 0, 0, 0, 7, 0, 0,
    0, 0, 0, 0, 0, 1, 0, 0, 0, 0,
];

/// Process 2 replies, at clock 2001: it logs both deliveries, and knows that process 1 held the first one.
const ANSWER: [u8; 65] = [
    1, 3, 1, 2, 3, 4, 5, 6, 7, 8, 0, 3, 0, 1, 2, 1, 0, 0, 0, 0, 0, 0, 0, 0, 0, 0, 7, 209, 0, 0, 0, 0, 0, 0, 0, 7, 0, 0,
    0, 2, 0, 0, 0, 0, 0, 1, 0, 0, 0, 0, 1, 1, 0, 1, 0, 0, 0, 0, 2, 0, 0, 0, 0, 0, 0,
];

const DELIVERED: Determinant = Determinant { source: 0, ssn: 0, dest: 1, rsn: 0 };
const NEXT: Determinant = Determinant { source: 1, ssn: 0, dest: 2, rsn: 0 };

fn node(process: u8, lane: u32, clock: u64) -> Node {
    Node::open(identity(process, lane, clock)).unwrap()
}

fn identity(process: u8, lane: u32, clock: u64) -> Identity {
    Identity { process, processes: 3, faults: 1, run: 0x0102_0304_0506_0708, lane, clock, seed: 5 }
}

fn refused<T>(fault: NodeFault) -> Result<T, Error> {
    Err(Error::Node(fault))
}

#[test]
fn a_message_is_sent_and_delivered() {
    let (mut zero, mut one) = (node(0, 0, 0), node(1, 0, 0));
    assert_eq!(zero.header().unwrap(), b"[\"recording\",0,1,3,72623859790382856]\n");
    let line = b"[\"send\",0,1000,1,0]\n".to_vec();
    assert_eq!(zero.send(1000, 1, &[7]), Ok(Sent { ssn: 0, clock: 1000, line, parcel: FIRST.to_vec() }));
    let line = b"[\"deliver\",1,1001,0,0,0,0,[[0,0,1,0]]]\n".to_vec();
    let listed = vec![DELIVERED];
    let message = Message { source: 0, lane: 0, ssn: 0, rsn: 0, clock: 1001, line, body: vec![7], listed };
    assert_eq!(one.receive(900, &FIRST), Ok(Received::Message(message)));
    assert_eq!(one.send(1005, 2, b"").unwrap().parcel, SECOND);
}

#[test]
fn a_process_recovers_what_another_one_logs() {
    let (mut zero, mut two, mut again) = (node(0, 0, 0), node(2, 0, 0), node(1, 1, 1005));
    two.receive(1100, &SECOND).unwrap();
    again.begin_round(7).unwrap();
    assert_eq!(again.awaited(), Ok(vec![0, 2]));
    assert_eq!((again.view(), two.view()), (Ok(vec![0, 1, 0]), Ok(vec![0, 0, 0])));
    assert_eq!(again.question(2000, 2).unwrap(), QUESTION);
    assert_eq!(two.receive(1500, &QUESTION), Ok(Received::Question(1, ANSWER.to_vec())));
    assert_eq!(two.view(), Ok(vec![0, 1, 0]));
    assert_eq!(again.receive(0, &ANSWER), Ok(Received::Log(2)));
    assert_eq!(again.restart(2100), refused(NodeFault::Waiting));
    let question = again.question(2000, 0).unwrap();
    match zero.receive(0, &question) {
        Ok(Received::Question(1, reply)) => assert_eq!(again.receive(0, &reply), Ok(Received::Log(0))),
        other => panic!("{other:?}"),
    }
    assert_eq!(again.state().unwrap().stage, Stage::Reading);
    again.finish_read(7).unwrap();
    assert_eq!(again.state().unwrap().stage, Stage::Ready);
    assert_eq!(again.restart(2100).unwrap(), b"[\"restart\",1,2100,[[0,0,1,0],[1,0,2,0]]]\n");
    assert_eq!(again.due(), Ok(Some(MessageName { source: 0, ssn: 0 })));
    assert!(matches!(again.receive(2200, &FIRST), Ok(Received::Message(_))));
    assert_eq!(again.due(), Ok(None));
    assert_eq!(two.receive(0, &SECOND), refused(NodeFault::OldLane));
}

#[test]
fn the_starter_may_reply_for_who_has_ended() {
    let mut again = node(1, 1, 1005);
    again.begin_round(7).unwrap();
    again.take_ended(7, 0, 0).unwrap();
    assert_eq!(again.awaited(), Ok(vec![2]));
    again.take_ended(7, 2, 3).unwrap(); // another number than that of the view: the round is given up
    assert_eq!(again.state().unwrap().stage, Stage::Down);
    assert_eq!(again.view(), Ok(vec![0, 1, 3]));
    assert_eq!(again.question(0, 2), refused(NodeFault::NoRound));
}

#[test]
fn what_is_stored_is_forgotten() {
    let mut one = node(1, 0, 0);
    one.receive(1000, &FIRST).unwrap();
    assert_eq!(one.unstored(), Ok(vec![DELIVERED]));
    assert_eq!(one.forget(0), Ok(vec![]));
    assert_eq!(one.stored(2000, DELIVERED).unwrap(), b"[\"stable\",1,2000,[0,0,1,0]]\n");
    assert_eq!(one.unstored(), Ok(vec![]));
    assert_eq!(one.forget(3000).unwrap(), b"[\"forget\",1,3000,[[0,0,1,0]]]\n");
    let state = NodeState { stage: Stage::Up, clock: 3000, round: 0, lane: 0, logged: 0, sent: 0, received: 1 };
    assert_eq!(one.state(), Ok(state));
}

#[test]
fn an_acknowledgement_spares_what_a_message_carries() {
    let (mut one, mut two) = (node(1, 0, 0), node(2, 0, 0));
    one.receive(1000, &FIRST).unwrap();
    let parcel = one.send(1005, 2, b"").unwrap().parcel;
    two.receive(1100, &parcel).unwrap();
    let acknowledgement = two.acknowledge(1200, 1, &[DELIVERED, NEXT]).unwrap();
    assert_eq!(one.receive(0, &acknowledgement), Ok(Received::Acknowledgement(2)));
    assert_eq!(one.send(0, 2, b"").unwrap().parcel.len(), 40);
    assert_eq!(two.acknowledge(1200, 1, &[NEXT, DELIVERED]), Err(Error::Unsorted));
}

#[test]
fn a_message_is_sent_again_as_it_was() {
    let mut zero = node(0, 0, 0);
    zero.send(1000, 1, &[7]).unwrap();
    assert_eq!(zero.resend(0), Ok(Some(Resent { to: 1, parcel: FIRST.to_vec() })));
    assert_eq!(zero.resend(1), Ok(None));
}

#[test]
fn refusals_change_nothing() {
    let mut one = node(1, 0, 0);
    one.receive(1000, &FIRST).unwrap();
    let before = one.state();
    assert_eq!(one.receive(0, &FIRST), refused(NodeFault::Duplicate));
    assert_eq!(one.receive(0, &FIRST[..40]), refused(NodeFault::WireShort));
    assert_eq!(one.receive(0, &SECOND), refused(NodeFault::NotMine));
    assert_eq!(one.send(0, 3, b""), refused(NodeFault::NoProcess));
    assert_eq!(one.send(1 << 62, 2, b""), refused(NodeFault::Clock));
    assert_eq!(one.begin_round(1), refused(NodeFault::Up));
    assert_eq!(one.state(), before);
    assert_eq!(node(1, 1, 0).send(0, 2, b""), refused(NodeFault::NotUp));
    assert_eq!(node(1, 1, 0).receive(0, &FIRST), refused(NodeFault::NotUp));
    assert_eq!(Node::open(identity(3, 0, 0)).err(), Some(Error::Node(NodeFault::NoProcess)));
    assert_eq!(Node::open(identity(0, 0, 1 << 62)).err(), Some(Error::Node(NodeFault::Clock)));
}

#[test]
fn a_long_body_comes_whole() {
    let body = vec![3; 300_000];
    let parcel = node(0, 0, 0).send(0, 1, &body).unwrap().parcel;
    match node(1, 0, 0).receive(0, &parcel) {
        Ok(Received::Message(message)) => assert!(message.body == body),
        other => panic!("{other:?}"),
    }
}

#[test]
fn the_line_of_a_crash() {
    assert_eq!(nixu::crash_line(1, 2000).unwrap(), b"[\"crash\",1,2000]\n");
}

#[test]
fn each_refusal_has_a_number_and_a_sentence() {
    assert_eq!((NodeFault::WireTrailing as u32, NodeFault::NotMine as u32, NodeFault::Full as u32), (41, 64, 80));
    let mut sentences: Vec<String> = NodeFault::ALL.iter().map(NodeFault::to_string).collect();
    sentences.sort();
    sentences.dedup();
    assert_eq!(sentences.len(), NodeFault::ALL.len() - 1);
    assert_eq!(NodeFault::WireClock.to_string(), NodeFault::Clock.to_string());
    assert!(!sentences.contains(&"a refusal of another version".to_string()));
    let later: Vec<_> = NodeFault::ALL.into_iter().filter(|fault| fault.is_later()).collect();
    assert_eq!(later, [NodeFault::NotUp, NodeFault::MustReplay, NodeFault::Reserved, NodeFault::NotYet]);
}
