//! What has to hold of each state and of each step. Late replies count as taken: the checks look at the settled state.
use crate::state::*;
use crate::steps::Action;

impl State {
    /// What is wrong with a state: too many down, an orphan (under a crash set of at most f), two survivors of one slot.
    pub fn breach(&self, f: u32, shown: bool) -> Option<String> {
        let down = self.down();
        if down.count_ones() > f {
            return Some("exceeded".into());
        }
        for (p, x) in self.nodes.iter().enumerate() {
            for &d in &x.depends {
                if !x.log.has(d) && !has(&self.recorded, d) && (down | self.holders(d)).count_ones() <= f {
                    return Some(format!("orphan {p} of {}", show(d)));
                }
            }
        }
        let all = if shown {
            let mut all = self.recorded.clone();
            self.nodes.iter().for_each(|x| x.log.0.iter().for_each(|e| insert(&mut all, e.0)));
            all
        } else {
            self.survivors()
        };
        for (i, &a) in all.iter().enumerate() {
            if let Some(&c) = all[i + 1..].iter().find(|&&c| same_slot(a, c)) {
                return Some(format!("slot of {} and {}", show(a), show(c)));
            }
        }
        None
    }

    /// Whether q logs d, or is down and has to recover it.
    fn counts_as_holder(&self, q: usize, d: Det) -> bool {
        let x = &self.nodes[q];
        if x.up { x.log.has(d) } else { has(&x.to_recover, d) }
    }

    fn is_found_by(&self, q: usize, d: Det) -> bool {
        has(&self.recorded, d) || self.counts_as_holder(q, d)
    }

    fn is_safe(&self, d: Det, f: u32) -> bool {
        has(&self.recorded, d) || (0..self.nodes.len()).filter(|&q| self.counts_as_holder(q, d)).count() as u32 > f
    }

    /// The clause of the invariant that a state breaks. F1, F7 and what a trace shows are those of `breach`.
    pub fn broken_clause(&self, b: &Bounds) -> Option<String> {
        let n = self.nodes.len();
        let survivors = self.survivors();
        if let Some(&d) = survivors.iter().find(|&&d| !self.is_found_by(dest_of(d) as usize, d)) {
            return Some(format!("F3: the receiver does not find {}", show(d)));
        }
        let lie = |d: Det, holders: u8, who: &str| bits(holders).find(|&q| !self.is_found_by(q, d)).map(|q| format!("F2: {who} says that {q} holds {}", show(d)));
        for (p, x) in self.nodes.iter().enumerate() {
            for e in &x.log.0 {
                if let Some(w) = lie(e.0, e.1 | 1 << p, &format!("log {p}")) {
                    return Some(w);
                }
                if e.2 && !has(&self.recorded, e.0) {
                    return Some(format!("F4: log {p} marks {}", show(e.0)));
                }
            }
            if let Some(&d) = x.depends.iter().find(|&&d| !x.log.has(d) && !self.is_safe(d, b.f)) {
                return Some(format!("F5: {p} depends on {}", show(d)));
            }
            let next = x.received.len() as u8;
            if let Some(&d) = survivors.iter().find(|&&d| x.up && dest_of(d) == p as u8 && rsn_of(d) >= next && !x.log.has(d)) {
                return Some(format!("next: log {p} lacks its own {}", show(d)));
            }
            if let Some(r) = x.present_round().filter(|_| self.is_open(p)) {
                if let Some(w) = r.gathered.0.iter().find_map(|e| lie(e.0, e.1, &format!("what {p} gathered"))) {
                    return Some(w);
                }
            }
        }
        for m in self.messages.iter().filter(|m| self.in_transit(m.source, m.lane, m.to)) {
            if let Some(w) = m.batch.iter().find_map(|e| lie(e.0, e.1 | 1 << m.source, "a message")) {
                return Some(w);
            }
            if let Some(&d) = m.depends.iter().find(|&&d| !m.batch.iter().any(|e| e.0 == d) && !self.is_safe(d, b.f)) {
                return Some(format!("F6: a message depends on {}", show(d)));
            }
        }
        for a in self.acks.iter().filter(|a| self.in_transit(a.source, a.lane, a.to)) {
            if let Some(w) = a.dets.iter().find_map(|&d| lie(d, 1 << a.source, "an acknowledgement")) {
                return Some(w);
            }
        }
        if let Some(w) = self.writes.iter().find_map(|w| lie(w.2, 1 << w.0, "a write")) {
            return Some(w);
        }
        (0..n).find_map(|s| self.broken_clause_of_round(s))
    }

    /// I0 to I4, of the round of s.
    fn broken_clause_of_round(&self, s: usize) -> Option<String> {
        let n = self.nodes.len();
        for q in 0..n {
            let number = self.nodes[q].number();
            if self.nodes[s].floors[q] > number || self.nodes[s].present_round().is_some_and(|r| r.view[q] > number) {
                return Some(format!("I0: {s} of {q}"));
            }
        }
        let r = self.nodes[s].present_round()?;
        for y in bits(r.replied).filter(|&y| y != s) {
            let z = &self.nodes[y];
            if z.present_round().is_some_and(|o| o.replied >> s & 1 == 1) {
                return Some(format!("I1: {s} and {y} have replied to each other"));
            }
            if z.lane + 1 != r.view[y] + (r.answered >> y & 1) {
                return Some(format!("I2: {y} has replied to {s}, and has come up since"));
            }
        }
        for z in 0..n {
            if let Some(o) = self.nodes[z].present_round().filter(|o| o.replied >> s & 1 == 1) {
                if let Some(w) = bits(r.answered).find(|&w| o.view[w] > r.view[w]) {
                    return Some(format!("I4: {s} has replied to {z}, which sees {w} in a later lane"));
                }
            }
        }
        if !self.is_open(s) {
            return None;
        }
        // I3
        let missed = |d: Det| {
            has(&self.nodes[s].to_recover, d)
                && !r.gathered.has(d)
                && !(has(&self.recorded, d) && !(r.read && dest_of(d) == s as u8))
                && !(0..n).any(|z| z != s && r.replied >> z & 1 == 0 && self.nodes[z].log.has(d))
        };
        let wrong = |d: Det, where_: String| Some(format!("I3: {where_} has {}, which {s} will miss", show(d)));
        let answered = |y: u8| r.replied >> y & 1 == 1;
        for y in bits(r.replied).filter(|&y| self.nodes[y].up) {
            if let Some(e) = self.nodes[y].log.0.iter().find(|e| missed(e.0)) {
                return wrong(e.0, format!("log {y}"));
            }
        }
        let lanes = |source: u8, lane: u8| answered(source) && lane == r.view[source as usize];
        let reaches = |source: u8, lane: u8, to: u8| self.nodes[to as usize].up && answered(to) && lane >= self.nodes[to as usize].floors[source as usize];
        for m in &self.messages {
            if (lanes(m.source, m.lane) && self.in_transit(m.source, m.lane, m.to)) || reaches(m.source, m.lane, m.to) {
                if let Some(e) = m.batch.iter().find(|e| missed(e.0)) {
                    return wrong(e.0, format!("a message of {}", m.source));
                }
            }
        }
        for a in self.acks.iter().filter(|a| lanes(a.source, a.lane) && self.in_transit(a.source, a.lane, a.to)) {
            if let Some(&d) = a.dets.iter().find(|&&d| missed(d)) {
                return wrong(d, format!("an acknowledgement of {}", a.source));
            }
        }
        // what another open round has gathered, where all that answered it have replied to this one, in the same lanes
        for (z, x) in self.nodes.iter().enumerate() {
            let Some(o) = x.present_round().filter(|_| z != s && self.is_open(z)) else { continue };
            if bits(o.answered).all(|y| answered(y as u8) && r.view[y] == o.view[y]) {
                if let Some(e) = o.gathered.0.iter().find(|e| missed(e.0)) {
                    return wrong(e.0, format!("a round of {z}"));
                }
            }
        }
        let w = self.writes.iter().find(|w| lanes(w.0, w.1) && missed(w.2))?;
        wrong(w.2, format!("a write of {}", w.0))
    }

    /// What makes a step no legal step of the general protocol, besides the invariant.
    pub fn illegal_step(&self, a: &Action, t: &State, events: &[Event]) -> Option<String> {
        for m in &t.messages {
            let new = matches!(*a, Action::Send { p, .. } if p == m.source && m.life == self.nodes[p as usize].life && m.ssn == self.nodes[p as usize].sent);
            if !new && t.in_transit(m.source, m.lane, m.to) && !self.in_transit(m.source, m.lane, m.to) {
                return Some(format!("legal: {a:?} brings a message into transit"));
            }
        }
        for k in &t.acks {
            let new = matches!(*a, Action::Ack { y, to } if y == k.source && to == k.to);
            if !new && t.in_transit(k.source, k.lane, k.to) && !self.in_transit(k.source, k.lane, k.to) {
                return Some(format!("legal: {a:?} brings an acknowledgement into transit"));
            }
        }
        if let Action::Deliver { to, source, life, ssn } = *a {
            if self.messages.iter().any(|m| (m.source, m.life, m.ssn, m.to) == (source, life, ssn, to) && !self.in_transit(source, m.lane, to)) {
                return Some("legal: a message that was not in transit is delivered".into());
            }
        }
        let before = self.survivors();
        for e in events {
            match e {
                Event::Stable(d) if !has(&before, *d) => return Some(format!("legal: {} became stable and did not survive", show(*d))),
                Event::Restart(s, listed) => {
                    if let Some(d) = listed.iter().find(|&&d| !has(&before, d)) {
                        return Some(format!("legal: {s} lists {}, which did not survive", show(*d)));
                    }
                    let after = t.survivors();
                    let mut elsewhere = t.clone();
                    elsewhere.stored.clear();
                    let elsewhere = elsewhere.survivors();
                    let to_recover = &self.nodes[*s as usize].to_recover;
                    if let Some(d) = to_recover.iter().find(|&&d| has(&elsewhere, d) && !has(&t.recorded, d) && !has(listed, d)) {
                        return Some(format!("R: {s} lacks {}, which it has to recover", show(*d)));
                    }
                    if let Some(d) = after.iter().find(|&&d| dest_of(d) == *s && !has(listed, d)) {
                        return Some(format!("R: {s} lacks {} of its own", show(*d)));
                    }
                }
                _ => {}
            }
        }
        None
    }
}
