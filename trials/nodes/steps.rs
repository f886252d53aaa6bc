//! The steps of the protocol: each is one atomic step of one process, or of stable storage. What is in transit is never lost by a
//! step: it may be taken at any later time, again and again, or never.
use crate::state::*;

#[derive(Clone, Copy, PartialEq, Eq, Debug, Hash)]
pub enum Action {
    Send { p: u8, to: u8 },
    Deliver { to: u8, source: u8, life: u8, ssn: u8 },
    Crash { p: u8, uncounted: u8 },
    Begin { s: u8, other: u8 },
    Answer { y: u8, s: u8, round: u8 },
    SayNotUp { q: u8, s: u8, round: u8 },
    TakeReply { s: u8, from: u8, which: u8 },
    Read { s: u8 },
    Fence { s: u8, round: u8 },
    TakeRead { s: u8, which: u8 },
    Restart { s: u8 },
    Write { p: u8 },
    Store { source: u8, lane: u8, d: Det },
    Confirm { p: u8, d: Det },
    Forget { p: u8 },
    Ack { y: u8, to: u8 },
    TakeAck { y: u8, lane: u8, to: u8 },
    Lose { d: Det },
}

macro_rules! rules {
    ($($(#[$doc:meta])* $name:ident),* $(,)?) => {
        /// The rules of the protocol that are dropped or changed.
        #[derive(Clone, Copy, PartialEq, Eq, Debug, Default)]
        pub struct Rules { $($(#[$doc])* pub $name: bool),* }
        impl Rules {
            pub const NAMES: &'static [&'static str] = &[$(stringify!($name)),*];
            pub fn set(&mut self, name: &str) -> bool {
                match name { $(stringify!($name) => { self.$name = true; true })* _ => false }
            }
        }
    };
}
rules! {
    /// a message carries no determinant with f known holders
    stop_at_f,
    /// who is sent a determinant counts as a holder at once
    count_receiver,
    /// who answers raises no floors
    raise_no_floor,
    /// who answers raises the floor of the asker alone
    raise_one_floor,
    /// a new lane begins without floors
    restart_without_floors,
    /// the answer of one process that is up is enough
    first_answer,
    /// one process that is up need not have answered
    all_but_one,
    /// one that crashed before its reply is passed over, without a new round
    skip_crashed,
    /// who is not up need not have replied
    skip_down,
    /// who says that it is not up goes on with its own round
    keep_own_round,
    /// "not up" may have been said before the round
    take_stale_word,
    /// a view may have a number that its process has not told yet
    guess_number,
    /// what given-up rounds gathered is kept
    keep_given_up,
    /// an answer to an earlier round counts
    count_old_answers,
    /// of an answer only what names the asker is gathered
    gather_own_only,
    /// acknowledgements of refused lanes are taken
    take_refused_acks,
    /// the determinant in the log for the next slot is ignored
    ignore_named,
    /// a restart does not read stable storage
    skip_storage,
    /// stable storage is read before the answers
    read_first,
    /// stable storage takes writes of refused lanes
    no_fence,
    /// a determinant is known to be stable before storage has confirmed it
    mark_early,
    /// a determinant is forgotten before storage has confirmed it
    forget_early,
    /// a determinant of a slot that is still to be repeated is forgotten
    forget_future,
    /// assumption: a process is declared down while it runs
    declare_early,
    /// assumption: a lane is not counted, and its number used again
    reuse_lane,
    /// assumption: a round has the name of an earlier round
    reuse_round_name,
    /// assumption: storage loses what it confirmed
    lose_stored,
    /// variant: answers carry determinants without holders or marks
    answer_dets_only,
    /// variant: who answers counts the asker as a holder
    count_asker,
    /// variant: a restart gathers from stable storage only its own slots
    read_own_only,
    /// variant: no message names a holder
    name_no_holders,
    /// variant: a write that is not stored when its process ends is never stored (then no fence is needed)
    writes_end_with_crash,
}

impl State {
    pub fn actions(&self, rules: &Rules, b: &Bounds) -> Vec<Action> {
        let n = b.n as u8;
        let mut out = vec![];
        for p in 0..n {
            let x = &self.nodes[p as usize];
            if x.up {
                if self.used.sends < b.max.sends {
                    out.extend((0..n).filter(|&to| to != p || b.self_sends).map(|to| Action::Send { p, to }));
                }
                if self.used.crashes < b.max.crashes && self.down().count_ones() < b.f {
                    out.push(Action::Crash { p, uncounted: 0 });
                    if rules.reuse_lane && x.lane > 0 {
                        out.push(Action::Crash { p, uncounted: 1 });
                    }
                }
                if self.used.writes < b.max.writes && x.log.0.iter().any(|e| !e.2 && !has(&self.stored, e.0) && !self.writes.contains(&(p, x.lane, e.0))) {
                    out.push(Action::Write { p });
                }
                for e in x.log.0.iter().filter(|e| !e.2) {
                    if has(&self.stored, e.0) || (rules.mark_early && self.writes.contains(&(p, x.lane, e.0))) {
                        out.push(Action::Confirm { p, d: e.0 });
                    }
                }
                if b.max.writes > 0 {
                    out.push(Action::Forget { p });
                }
                if self.used.acks < b.max.acks && !x.log.0.is_empty() {
                    out.extend((0..n).filter(|&to| to != p).map(|to| Action::Ack { y: p, to }));
                }
            } else {
                if self.used.rounds < b.max.rounds && (x.present_round().is_none() || b.any_give_up || !self.is_open(p as usize)) {
                    out.push(Action::Begin { s: p, other: 0 });
                    for q in (0..n).filter(|&q| q != p) {
                        let y = &self.nodes[q as usize];
                        if (y.up && ((rules.take_stale_word && y.lane > 0) || rules.guess_number || rules.declare_early)) || (b.late && y.number() > 0) {
                            out.push(Action::Begin { s: p, other: 1 << q });
                        }
                    }
                }
                if x.present_round().is_some() {
                    out.push(Action::Read { s: p });
                    out.push(Action::Restart { s: p });
                }
            }
            let questions: Vec<(u8, u8)> = if b.late {
                self.packets.iter().filter_map(|k| if let Packet::Question { from, round, .. } = k { Some((*from, *round)) } else { None }).collect()
            } else {
                (0..n).filter_map(|s| self.nodes[s as usize].present_round().map(|r| (s, r.name))).collect()
            };
            for (s, round) in questions.into_iter().filter(|&(s, _)| s != p) {
                if x.up {
                    out.push(Action::Answer { y: p, s, round });
                }
                if !x.up || rules.declare_early {
                    out.push(Action::SayNotUp { q: p, s, round });
                }
            }
        }
        if self.used.deliveries < b.max.deliveries {
            for m in self.messages.iter().filter(|m| self.nodes[m.to as usize].up) {
                out.push(Action::Deliver { to: m.to, source: m.source, life: m.life, ssn: m.ssn });
            }
        }
        let mut which = [[0; MAX]; MAX];
        for k in &self.packets {
            match *k {
                Packet::Answer { from, to, .. } | Packet::NotUp { from, to, .. } => {
                    let i = &mut which[to as usize][from as usize];
                    out.push(Action::TakeReply { s: to, from, which: *i });
                    *i += 1;
                }
                Packet::Read { from, round, .. } => out.push(Action::Fence { s: from, round }),
                Packet::WasRead { to, .. } => {
                    let i = &mut which[to as usize][to as usize];
                    out.push(Action::TakeRead { s: to, which: *i });
                    *i += 1;
                }
                Packet::Question { .. } => {}
            }
        }
        out.extend(self.writes.iter().map(|&(source, lane, d)| Action::Store { source, lane, d }));
        out.extend(self.acks.iter().map(|a| Action::TakeAck { y: a.source, lane: a.lane, to: a.to }));
        if rules.lose_stored {
            out.extend(self.stored.iter().map(|&d| Action::Lose { d }));
        }
        out
    }

    /// The state after an action and what it records, if it may happen.
    pub fn step(&self, action: &Action, rules: &Rules, b: &Bounds, events: &mut Vec<Event>) -> Option<State> {
        let mut t = self.clone();
        let n = b.n;
        match *action {
            Action::Send { p, to } => {
                let x = &mut t.nodes[p as usize];
                if !x.up || x.sent >= 31 {
                    return None;
                }
                let limit = if rules.stop_at_f { b.f } else { b.f + 1 };
                let mut batch: Vec<(Det, u8)> = x.log.0.iter().filter(|e| !e.2 && e.1.count_ones() < limit).map(|e| (e.0, e.1)).collect();
                if rules.count_receiver {
                    x.log.0.iter_mut().for_each(|e| e.1 |= 1 << to);
                }
                if rules.name_no_holders {
                    batch.iter_mut().for_each(|e| e.1 = 0);
                }
                let m = Message { source: p, life: x.life, lane: x.lane, ssn: x.sent, to, batch, depends: x.depends.clone() };
                events.push(Event::Send { p, life: x.life, to, ssn: x.sent });
                x.sent += 1;
                insert(&mut t.messages, m);
                t.used.sends += 1;
            }
            Action::Deliver { to, source, life, ssn } => {
                let m = self.messages.iter().find(|m| m.source == source && m.life == life && m.ssn == ssn && m.to == to)?;
                let x = &mut t.nodes[to as usize];
                let rsn = x.received.len() as u8;
                if !x.up || m.lane < x.floors[source as usize] || x.received.contains(&(source, ssn)) || rsn >= 31 {
                    return None;
                }
                let own = det(source, ssn, to, rsn);
                if !rules.ignore_named && x.log.0.iter().any(|e| same_slot(e.0, own) && e.0 != own) {
                    return None;
                }
                if !x.log.has(own) && !has(&self.recorded, own) {
                    // it is delivered as new: nobody has to recover it any more
                    t.nodes.iter_mut().for_each(|x| x.to_recover.retain(|&d| d != own));
                }
                let x = &mut t.nodes[to as usize];
                let mut listed: Vec<Det> = m.batch.iter().map(|e| e.0).collect();
                m.batch.iter().for_each(|&(d, holders)| x.log.learn(d, holders | 1 << source | 1 << to, false));
                m.depends.iter().for_each(|&d| insert(&mut x.depends, d));
                insert(&mut x.depends, own);
                x.log.learn(own, 1 << to, false);
                insert(&mut listed, own);
                x.received.push((source, ssn));
                events.push(Event::Deliver { to, source, life, ssn, rsn, listed });
                t.used.deliveries += 1;
            }
            Action::Crash { p, uncounted } => {
                if self.down().count_ones() >= b.f || !self.nodes[p as usize].up {
                    return None;
                }
                let x = &mut t.nodes[p as usize];
                if uncounted > 0 {
                    if !rules.reuse_lane || x.lane == 0 {
                        return None;
                    }
                    x.lane -= 1;
                }
                if b.invariant {
                    x.to_recover = x.log.dets();
                }
                x.up = false;
                x.log = Log::default();
                x.floors = [0; MAX];
                x.sent = 0;
                x.received.clear();
                x.depends.clear();
                x.round = None;
                if rules.writes_end_with_crash {
                    t.writes.retain(|w| w.0 != p);
                }
                events.push(Event::Crash(p));
                t.used.crashes += 1;
            }
            Action::Begin { s, other } => {
                let x = &self.nodes[s as usize];
                if x.up || (x.present_round().is_some() && !b.any_give_up && self.is_open(s as usize)) {
                    return None;
                }
                let mut view = [0; MAX];
                let mut replied = 0;
                for q in 0..n {
                    let y = &self.nodes[q];
                    view[q] = y.number();
                    if other >> q & 1 == 0 {
                        continue;
                    }
                    if y.up && (rules.guess_number || rules.declare_early) {
                        view[q] += 1;
                    } else if y.up && rules.take_stale_word && y.lane > 0 {
                        replied |= 1 << q; // q said so, with this number as its next lane, before it came up
                    } else if b.late && view[q] > 0 {
                        view[q] -= 1; // it has told a greater number since
                    } else {
                        return None;
                    }
                }
                let mut gathered = Log::default();
                if let Some(old) = &x.round {
                    if rules.keep_given_up || rules.count_old_answers {
                        gathered = old.gathered.clone();
                    }
                    if rules.count_old_answers {
                        replied |= bits(old.replied).filter(|&q| old.view[q] == view[q]).fold(0, |m, q| m | 1 << q);
                    }
                }
                let name = x.begun;
                if b.late {
                    t.nodes[s as usize].begun += !rules.reuse_round_name as u8;
                    insert(&mut t.packets, Packet::Question { from: s, round: name, view });
                }
                t.nodes[s as usize].round = Some(Box::new(Round { name, view, replied, answered: 0, gathered, read: false, void: false }));
                t.used.rounds += 1;
            }
            Action::Answer { y, s, round } => {
                let z = &self.nodes[y as usize];
                let view = self.asked(s, round, y, z.lane, b)?;
                if !z.up || y == s || (rules.read_first && !self.nodes[s as usize].present_round()?.read) {
                    return None;
                }
                let node = &mut t.nodes[y as usize];
                for q in 0..n {
                    if !rules.raise_no_floor && (!rules.raise_one_floor || q == s as usize) {
                        node.floors[q] = node.floors[q].max(view[q]);
                    }
                }
                let mut log = node.log.clone();
                if rules.answer_dets_only {
                    log.0.iter_mut().for_each(|e| (e.1, e.2) = (0, false));
                }
                if rules.gather_own_only {
                    log.0.retain(|e| dest_of(e.0) == s || e.1 >> s & 1 == 1);
                }
                if rules.count_asker {
                    node.log.0.iter_mut().for_each(|e| e.1 |= 1 << s);
                    // the asker has to recover what it was told, as long as that survives
                    let all = node.log.dets();
                    if b.invariant {
                        all.into_iter().for_each(|d| insert(&mut t.nodes[s as usize].to_recover, d));
                    }
                }
                if b.late {
                    insert(&mut t.packets, Packet::Answer { from: y, to: s, round, log });
                } else {
                    t.take_reply(s, y, round, Some(&log));
                }
            }
            Action::SayNotUp { q, s, round } => {
                let z = &self.nodes[q as usize];
                self.asked(s, round, q, z.lane + 1, b)?;
                if (z.up && !rules.declare_early) || q == s {
                    return None;
                }
                if !rules.keep_own_round && !z.up {
                    if rules.keep_given_up || rules.count_old_answers {
                        if let Some(r) = &mut t.nodes[q as usize].round {
                            r.void = true;
                        }
                    } else {
                        t.nodes[q as usize].round = None;
                    }
                }
                if b.late {
                    insert(&mut t.packets, Packet::NotUp { from: q, to: s, round });
                } else {
                    t.take_reply(s, q, round, None);
                }
            }
            Action::TakeReply { s, from, which } => {
                let replies = self.packets.iter().filter(|k| matches!(k, Packet::Answer { from: y, to, .. } | Packet::NotUp { from: y, to, .. } if *y == from && *to == s));
                match replies.skip(which as usize).next()? {
                    Packet::Answer { round, log, .. } => t.take_reply(s, from, *round, Some(log)),
                    Packet::NotUp { round, .. } => t.take_reply(s, from, *round, None),
                    _ => return None,
                }
            }
            Action::Read { s } => {
                let round = self.nodes[s as usize].present_round()?;
                if round.read || (!rules.read_first && !self.all_replied(s as usize, rules)) {
                    return None;
                }
                let (name, view) = (round.name, round.view);
                if b.late {
                    insert(&mut t.packets, Packet::Read { from: s, round: name, view });
                } else {
                    t.fence(&view, rules);
                    t.take_read(s, &self.stored, rules, events);
                }
            }
            Action::Fence { s, round } => {
                let view = self.packets.iter().find_map(|k| match k {
                    Packet::Read { from, round: name, view } if *from == s && *name == round => Some(*view),
                    _ => None,
                })?;
                t.fence(&view, rules);
                insert(&mut t.packets, Packet::WasRead { to: s, round, dets: self.stored.clone() });
            }
            Action::TakeRead { s, which } => {
                let mut replies = self.packets.iter().filter_map(|k| if let Packet::WasRead { to, round, dets } = k { Some((*to, *round, dets)) } else { None });
                let (_, round, dets) = replies.by_ref().filter(|r| r.0 == s).nth(which as usize)?;
                if self.nodes[s as usize].present_round().is_some_and(|r| r.name == round) {
                    t.take_read(s, dets, rules, events);
                }
            }
            Action::Restart { s } => {
                let x = &self.nodes[s as usize];
                let round = x.present_round()?;
                if x.up || !round.read || !self.all_replied(s as usize, rules) {
                    return None;
                }
                let x = &mut t.nodes[s as usize];
                let mut log = round.gathered.clone();
                log.0.iter_mut().for_each(|e| e.1 |= 1 << s);
                events.push(Event::Restart(s, log.dets()));
                x.up = true;
                x.lane += 1;
                x.life += 1;
                x.log = log;
                if !rules.restart_without_floors {
                    x.floors = round.view;
                }
                x.round = None;
                x.to_recover.clear();
            }
            Action::Write { p } => {
                let x = &self.nodes[p as usize];
                let new: Vec<_> = x.log.0.iter().filter(|e| !e.2 && !has(&self.stored, e.0)).map(|e| (p, x.lane, e.0)).filter(|w| !self.writes.contains(w)).collect();
                if !x.up || new.is_empty() {
                    return None;
                }
                new.into_iter().for_each(|w| insert(&mut t.writes, w));
                t.used.writes += 1;
            }
            Action::Store { source, lane, d } => {
                let i = t.writes.binary_search(&(source, lane, d)).ok()?;
                t.writes.remove(i);
                insert(&mut t.stored, d);
            }
            Action::Confirm { p, d } => {
                let x = &mut t.nodes[p as usize];
                let begun = rules.mark_early && self.writes.contains(&(p, x.lane, d));
                if !x.up || !(has(&self.stored, d) || begun) || x.log.get(d).is_none_or(|k| k.1) {
                    return None;
                }
                x.log.learn(d, 0, true);
                t.record(d, events);
            }
            Action::Forget { p } => {
                let x = &mut t.nodes[p as usize];
                let next = x.received.len() as u8;
                let may = |e: &(Det, u8, bool)| e.2 || (rules.forget_early && self.writes.contains(&(p, x.lane, e.0)));
                let gone: Vec<Det> = x.log.0.iter().filter(|e| may(e) && (rules.forget_future || dest_of(e.0) != p || rsn_of(e.0) < next)).map(|e| e.0).collect();
                if !x.up || gone.is_empty() {
                    return None;
                }
                x.log.0.retain(|e| !gone.contains(&e.0));
                events.push(Event::Forget(p, gone));
            }
            Action::Ack { y, to } => {
                let x = &self.nodes[y as usize];
                if !x.up || x.log.0.is_empty() || y == to {
                    return None;
                }
                let mut a = Ack { source: y, lane: x.lane, to, dets: x.log.dets() };
                if let Some(i) = t.acks.iter().position(|o| o.source == y && o.lane == x.lane && o.to == to) {
                    let old = t.acks.remove(i);
                    old.dets.iter().for_each(|&d| insert(&mut a.dets, d));
                    if a.dets == old.dets {
                        return None;
                    }
                }
                insert(&mut t.acks, a);
                t.used.acks += 1;
            }
            Action::TakeAck { y, lane, to } => {
                let a = self.acks.iter().find(|a| a.source == y && a.lane == lane && a.to == to)?;
                let x = &mut t.nodes[to as usize];
                if !x.up || (lane < x.floors[y as usize] && !rules.take_refused_acks) {
                    return None;
                }
                x.log.0.iter_mut().filter(|e| has(&a.dets, e.0)).for_each(|e| e.1 |= 1 << y);
            }
            Action::Lose { d } => {
                if !rules.lose_stored {
                    return None;
                }
                t.stored.retain(|&e| e != d);
            }
        }
        if t == *self {
            return None;
        }
        if b.prune {
            t.prune();
        }
        Some(t)
    }

    /// The view of the question of that round of s, where its number for q is this one: q may reply to it.
    fn asked(&self, s: u8, round: u8, q: u8, number: u8, b: &Bounds) -> Option<[u8; MAX]> {
        let view = if b.late {
            self.packets.iter().find_map(|k| match k {
                Packet::Question { from, round: name, view } if *from == s && *name == round && view[q as usize] == number => Some(*view),
                _ => None,
            })?
        } else {
            let r = self.nodes[s as usize].present_round()?;
            if r.replied >> q & 1 == 1 {
                return None;
            }
            r.view
        };
        (view[q as usize] == number).then_some(view)
    }

    fn record(&mut self, d: Det, events: &mut Vec<Event>) {
        if !has(&self.recorded, d) {
            insert(&mut self.recorded, d);
            events.push(Event::Stable(d));
        }
    }

    /// Stable storage refuses from now on writes of lanes below the view.
    fn fence(&mut self, view: &[u8; MAX], rules: &Rules) {
        if !rules.no_fence {
            self.writes.retain(|w| w.1 >= view[w.0 as usize]);
        }
    }

    /// s learns what stable storage had.
    fn take_read(&mut self, s: u8, dets: &[Det], rules: &Rules, events: &mut Vec<Event>) {
        let Some(r) = self.nodes[s as usize].round.as_mut() else { return };
        r.read = true;
        if rules.skip_storage {
            return;
        }
        for &d in dets {
            if !rules.read_own_only || dest_of(d) == s {
                self.nodes[s as usize].round.as_mut().unwrap().gathered.learn(d, 0, true);
                self.record(d, events);
            }
        }
    }

    fn all_replied(&self, s: usize, rules: &Rules) -> bool {
        let round = self.nodes[s].round.as_ref().unwrap();
        let n = self.nodes.len();
        let skipped = |q: usize| (rules.skip_down && !self.nodes[q].up) || (rules.skip_crashed && self.nodes[q].number() > round.view[q]);
        let missing: Vec<usize> = (0..n).filter(|&q| q != s && round.replied >> q & 1 == 0 && !skipped(q)).collect();
        if rules.first_answer || rules.all_but_one {
            // of those that are up all may be missing once one has answered; or one
            let up = missing.iter().filter(|&&q| self.nodes[q].up).count();
            let answered = (0..n).any(|q| q != s && self.nodes[q].up && round.replied >> q & 1 == 1);
            let allowed = if rules.all_but_one { 1 } else { n * answered as usize };
            return up <= allowed && missing.len() == up;
        }
        missing.is_empty()
    }
}
