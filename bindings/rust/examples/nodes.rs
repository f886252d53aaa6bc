//! Three processes in one program, whose network is a queue. Process 1 crashes, recovers from what the others log, and repeats what it
//! did. Prints the recordings: `nodes | causal_tool merge | causal_tool audit --faults 1`.
use nixu::{Error, Identity, Node, Received, Stage};
use std::collections::VecDeque;

type Parcels = VecDeque<(u8, Vec<u8>)>;

struct Process {
    me: u8,
    node: Node,
    recording: Vec<u8>,
    counted: u32,
}

impl Process {
    /// A process in its first lane, or again after `restarts` restarts and at least one crash.
    fn open(me: u8, lane: u32, clock: u64, mut recording: Vec<u8>) -> Result<Process, Error> {
        let mut node = Node::open(Identity { process: me, processes: 3, faults: 1, run: 4711, lane, clock, seed: 0 })?;
        recording.push(b'\n');
        recording.extend(node.header()?);
        Ok(Process { me, node, recording, counted: 0 })
    }

    /// The line first, then the parcel.
    fn send(&mut self, to: u8, text: &str, network: &mut Parcels) -> Result<(), Error> {
        let sent = self.node.send(0, to, text.as_bytes())?;
        self.recording.extend(sent.line);
        network.push_back((to, sent.parcel));
        Ok(())
    }

    fn receive(&mut self, parcel: &[u8], network: &mut Parcels) -> Result<(), Error> {
        match self.node.receive(0, parcel) {
            Ok(Received::Message(message)) => {
                self.recording.extend(message.line);
                self.act(message.source, network)
            }
            Ok(Received::Question(from, reply)) => {
                network.push_back((from, reply));
                Ok(())
            }
            Err(Error::Node(fault)) if fault.is_later() => {
                network.push_back((self.me, parcel.to_vec()));
                Ok(())
            }
            Ok(_) | Err(Error::Node(_)) => Ok(()),
            Err(error) => Err(error),
        }
    }

    /// The application: passes a number on, until nine were counted.
    fn act(&mut self, source: u8, network: &mut Parcels) -> Result<(), Error> {
        self.counted += 1;
        let to = (self.me + 1 + (u32::from(source) + self.counted) as u8 % 2) % 3;
        if self.counted < 9 {
            self.send(to, "next", network)?;
        }
        Ok(())
    }

    /// A round: all others are asked, then storage, which has nothing here.
    fn recover(&mut self, others: &mut [Process], name: u64) -> Result<(), Error> {
        self.node.begin_round(name)?;
        for other in others.iter_mut().filter(|other| other.me != self.me) {
            let question = self.node.question(0, other.me)?;
            if let Received::Question(_, reply) = other.node.receive(0, &question)? {
                self.node.receive(0, &reply)?;
            }
        }
        self.node.finish_read(name)?;
        self.recording.extend(self.node.restart(0)?);
        Ok(())
    }
}

fn run(processes: &mut [Process], network: &mut Parcels, most: usize) -> Result<(), Error> {
    for _ in 0..most {
        match network.pop_front() {
            Some((to, parcel)) => processes[usize::from(to)].receive(&parcel, network)?,
            None => return Ok(()),
        }
    }
    Ok(())
}

/// Everything that a process kept for another goes out again.
fn resend(processes: &mut [Process], to: u8, network: &mut Parcels) -> Result<(), Error> {
    for process in processes.iter_mut() {
        let mut ssn = 0;
        while let Some(again) = process.node.resend(ssn)? {
            if again.to == to {
                network.push_back((to, again.parcel));
            }
            ssn += 1;
        }
    }
    Ok(())
}

fn main() -> Result<(), Box<dyn std::error::Error>> {
    let mut processes = Vec::new();
    for me in 0..3 {
        processes.push(Process::open(me, 0, 0, Vec::new())?);
    }
    let mut network = Parcels::new();
    processes[0].send(1, "first", &mut network)?;
    processes[2].send(1, "second", &mut network)?;
    run(&mut processes, &mut network, 7)?;

    // Process 1 ends: its memory is lost, and what was under way to it. Its recording stays.
    let mut clock = 0;
    for process in &mut processes {
        clock = process.node.state()?.clock.max(clock);
    }
    let mut recording = std::mem::take(&mut processes[1].recording);
    recording.extend(nixu::crash_line(1, clock + 1)?);
    network.retain(|(to, _)| *to != 1);
    let mut again = Process::open(1, 1, clock + 1, recording)?;
    again.recover(&mut processes, 1)?;
    processes[1] = again;
    resend(&mut processes, 1, &mut network)?;
    run(&mut processes, &mut network, 1000)?;

    assert_eq!(processes[1].node.state()?.stage, Stage::Up);
    for process in &processes {
        print!("{}", String::from_utf8_lossy(&process.recording));
    }
    Ok(())
}
