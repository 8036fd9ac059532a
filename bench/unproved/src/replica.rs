//! The operations of a world, each stored once, and one replica: the machine step.

use crate::{doc::Doc, ids::*};
use std::collections::BTreeSet;

#[derive(Clone, Copy)]
pub enum Body {
    Insert { slot: Slot, run: u32, len: u32 }, // len 1: `run` is the atom, else where the atoms begin in `runs`
    Delete { target: Id },
    Propose { slot: Slot },
    Commit { proposal: Dot },
    Abort { proposal: Dot },
}

#[derive(Clone, Copy)]
pub struct Op {
    pub dot: Dot,
    /// The row of `deps`; at the operation's own site the number is `seq - 1` instead.
    pub deps: u32,
    pub body: Body,
}

#[derive(Clone, Copy)]
pub enum Message {
    Op(u32),
    Vote { proposal: Dot, voter: usize, yes: bool },
}

pub struct Store {
    pub n: usize,
    pub ops: Vec<Op>,
    by: Vec<Vec<u32>>, // per site and seq - 1
    runs: Vec<Atom>,
    deps: Vec<u32>, // n numbers per row
    pub messages: Vec<Message>,
}

impl Store {
    pub fn new(n: usize) -> Store {
        Store { n, ops: vec![], by: vec![vec![]; n], runs: vec![], deps: vec![], messages: vec![] }
    }
    /// The number of an operation, where it is made.
    pub fn number(&self, d: Dot) -> Option<u32> {
        self.by.get(site_of(d))?.get(seq_of(d) as usize - 1).copied()
    }
    pub fn op(&self, d: Dot) -> &Op {
        &self.ops[self.by[site_of(d)][seq_of(d) as usize - 1] as usize]
    }
    /// `deps` of an operation in place s.
    pub fn dep(&self, op: &Op, s: usize) -> u32 {
        if s == site_of(op.dot) {
            seq_of(op.dot) - 1
        } else {
            self.deps[op.deps as usize * self.n + s]
        }
    }
    pub fn has(&self, op: &Op, d: Dot) -> bool {
        seq_of(d) <= self.dep(op, site_of(d))
    }
    pub fn run(&self, op: &Op) -> Vec<Atom> {
        match op.body {
            Body::Insert { run, len: 1, .. } => vec![run],
            Body::Insert { run, len, .. } => self.runs[run as usize..(run + len) as usize].to_vec(),
            _ => unreachable!(),
        }
    }
    pub fn slot_of(&self, proposal: Dot) -> Slot {
        match self.op(proposal).body {
            Body::Propose { slot } => slot,
            _ => unreachable!(),
        }
    }
}

pub enum Reply {
    Made(Dot),
    Cancelled,
    Held(Dot),
    Position(u32),
    Limit(u32, u32),
    NotOpen,
    New,
    Later,
    Repeat,
}

struct Tally {
    seq: u32,
    voted: u64,
    decided: bool,
}

pub struct Replica<D> {
    pub site: usize,
    pub have: Vec<u32>,
    pub doc: D,
    deps: Option<u32>, // the row of `have`, where no other site's operation was taken since
    fit: Vec<u32>,     // per site a row of deps that `have` covers
    waiting: Vec<BTreeSet<u32>>,
    pub waits: u32,
    pub holds: Vec<(Dot, Slot)>, // by proposal
    commits: Vec<Vec<(u32, Slot)>>,
    own: Vec<Tally>, // by seq
    pub undecided: u32,
}

const LIMIT: u32 = 65_535;

impl<D: Doc> Replica<D> {
    pub fn new(site: usize, n: usize) -> Self {
        Replica {
            site,
            have: vec![0; n],
            doc: D::new(),
            deps: None,
            fit: vec![u32::MAX; n],
            waiting: vec![BTreeSet::new(); n],
            waits: 0,
            holds: vec![],
            commits: vec![vec![]; n],
            own: vec![],
            undecided: 0,
        }
    }
    pub fn made(&self) -> u32 {
        self.have[self.site]
    }

    // Local requests.

    fn make(&mut self, st: &mut Store, body: Body) -> Dot {
        let deps = match self.deps {
            Some(row) => row,
            None => {
                let row = (st.deps.len() / st.n) as u32;
                st.deps.extend_from_slice(&self.have);
                self.deps = Some(row);
                row
            }
        };
        self.have[self.site] += 1;
        let d = dot(self.site, self.made());
        let k = st.ops.len() as u32;
        st.by[self.site].push(k);
        st.ops.push(Op { dot: d, deps, body });
        st.messages.push(Message::Op(k));
        d
    }
    fn limit(&self, more: u32) -> Option<Reply> {
        (self.made() + self.undecided + more > LIMIT).then_some(Reply::Limit(self.made(), self.undecided))
    }
    fn held(&mut self, f: impl Fn(&mut D, Slot) -> bool) -> Option<Reply> {
        let doc = &mut self.doc;
        self.holds.iter().find(|h| f(doc, h.1)).map(|h| Reply::Held(h.0))
    }
    pub fn insert(&mut self, st: &mut Store, index: u32, atoms: &[Atom]) -> Reply {
        if index > self.doc.live() {
            return Reply::Position(self.doc.live());
        }
        let slot = self.doc.alloc(index);
        if !self.holds.is_empty() {
            // A held slot's atom may have to leave an array for this, so the place is found again.
            if let Some(r) = self.held(|d, h| d.contains(h, slot)) {
                return r;
            }
            self.doc.alloc(index);
        }
        if let Some(r) = self.limit(1) {
            return r;
        }
        let run = if atoms.len() == 1 {
            atoms[0]
        } else {
            st.runs.extend_from_slice(atoms);
            (st.runs.len() - atoms.len()) as u32
        };
        let d = self.make(st, Body::Insert { slot, run, len: atoms.len() as u32 });
        self.doc.insert_alloc(d, atoms);
        Reply::Made(d)
    }
    pub fn delete(&mut self, st: &mut Store, index: u32) -> Reply {
        if index >= self.doc.live() {
            return Reply::Position(self.doc.live());
        }
        let target = self.doc.live_at(index);
        self.delete_atom(st, target)
    }
    /// Condition: it is a live row.
    pub fn delete_atom(&mut self, st: &mut Store, target: Id) -> Reply {
        if let Some(r) = self.held(|d, h| d.within(target, h)) {
            return r;
        }
        if let Some(r) = self.limit(1) {
            return r;
        }
        let d = self.make(st, Body::Delete { target });
        self.doc.delete(target, d);
        Reply::Made(d)
    }
    pub fn propose_at(&mut self, st: &mut Store, index: u32, bit: u32) -> Reply {
        if index >= self.doc.live() {
            return Reply::Position(self.doc.live());
        }
        let slot = Slot::at(self.doc.live_at(index), bit);
        self.propose(st, slot)
    }
    /// Condition: the slot is Root or its atom is a row.
    pub fn propose(&mut self, st: &mut Store, slot: Slot) -> Reply {
        if let Some(r) = self.held(|d, h| d.overlap(h, slot)) {
            return r;
        }
        if let Some(r) = self.limit(2) {
            return r;
        }
        let d = self.make(st, Body::Propose { slot });
        self.hold(d, slot);
        self.own.push(Tally { seq: seq_of(d), voted: 1 << self.site, decided: false });
        self.undecided += 1;
        if st.n == 1 {
            self.decide(st, d, true);
        }
        Reply::Made(d)
    }
    pub fn cancel(&mut self, st: &mut Store, proposal: Dot) -> Reply {
        let open = site_of(proposal) == self.site && self.tally(proposal).is_some_and(|t| !t.decided);
        if !open {
            return Reply::NotOpen;
        }
        self.decide(st, proposal, false);
        Reply::Cancelled
    }
    pub fn has_proposed(&self, proposal: Dot) -> bool {
        site_of(proposal) == self.site && self.own.binary_search_by_key(&seq_of(proposal), |t| t.seq).is_ok()
    }
    fn tally(&mut self, proposal: Dot) -> Option<&mut Tally> {
        let i = self.own.binary_search_by_key(&seq_of(proposal), |t| t.seq).ok()?;
        Some(&mut self.own[i])
    }
    fn decide(&mut self, st: &mut Store, proposal: Dot, commit: bool) {
        self.tally(proposal).unwrap().decided = true;
        self.undecided -= 1;
        let d = self.make(st, if commit { Body::Commit { proposal } } else { Body::Abort { proposal } });
        self.end(st, d, proposal, commit);
    }
    /// The effect of a decision.
    fn end(&mut self, st: &Store, d: Dot, proposal: Dot, commit: bool) {
        if commit {
            let slot = st.slot_of(proposal);
            self.doc.flatten(slot);
            self.commits[site_of(d)].push((seq_of(d), slot));
        }
        self.holds.retain(|h| h.0 != proposal);
    }
    fn hold(&mut self, proposal: Dot, slot: Slot) {
        let i = self.holds.partition_point(|h| h.0 < proposal);
        self.holds.insert(i, (proposal, slot));
    }

    // Messages.

    fn ready(&mut self, st: &Store, op: &Op) -> bool {
        let s = site_of(op.dot);
        if seq_of(op.dot) != self.have[s] + 1 {
            return false;
        }
        if self.fit[s] == op.deps {
            return true;
        }
        let row = &st.deps[op.deps as usize * st.n..][..st.n];
        let yes = row.iter().zip(&self.have).enumerate().all(|(i, (d, h))| i == s || d <= h);
        if yes {
            self.fit[s] = op.deps;
        }
        yes
    }
    /// Whether an operation that was really made, and is ready, finds what it needs. In a world each does; where votes
    /// are invented, a commit may come without a hold, and remove the atom that another operation names.
    pub fn fits(&self, op: &Op) -> bool {
        match op.body {
            Body::Insert { slot, .. } => slot == ROOT || self.doc.has(slot.atom()),
            Body::Delete { target } => self.doc.has(target),
            Body::Commit { proposal } => self.holds.iter().any(|h| h.0 == proposal),
            Body::Propose { .. } | Body::Abort { .. } => true,
        }
    }
    /// Exactly where `take` would answer Repeat.
    pub fn known(&self, st: &Store, m: Message) -> bool {
        match m {
            Message::Op(k) => {
                let d = st.ops[k as usize].dot;
                let (s, q) = (site_of(d), seq_of(d));
                q <= self.have[s] || (self.waits > 0 && self.waiting[s].contains(&q))
            }
            Message::Vote { proposal, voter, .. } => {
                let Ok(i) = self.own.binary_search_by_key(&seq_of(proposal), |t| t.seq) else { return false };
                self.own[i].decided || self.own[i].voted >> voter & 1 == 1
            }
        }
    }
    pub fn take(&mut self, st: &mut Store, m: Message) -> Reply {
        if self.known(st, m) {
            return Reply::Repeat;
        }
        match m {
            Message::Op(k) => {
                let op = st.ops[k as usize];
                if !self.ready(st, &op) {
                    self.waiting[site_of(op.dot)].insert(seq_of(op.dot));
                    self.waits += 1;
                    return Reply::Later;
                }
                self.apply(st, &op);
            }
            Message::Vote { proposal, voter, yes } => {
                let all = if st.n == 64 { u64::MAX } else { (1 << st.n) - 1 };
                let t = self.tally(proposal).unwrap();
                t.voted |= 1 << voter;
                if !yes || t.voted == all {
                    self.decide(st, proposal, yes);
                }
            }
        }
        Reply::New
    }
    /// Takes the least ready waiting operation.
    pub fn next(&mut self, st: &mut Store) -> bool {
        if self.waits == 0 {
            return false;
        }
        for s in 0..st.n {
            let q = self.have[s] + 1;
            if self.waiting[s].first() == Some(&q) {
                let op = *st.op(dot(s, q));
                if self.ready(st, &op) {
                    self.waiting[s].pop_first();
                    self.waits -= 1;
                    self.apply(st, &op);
                    return true;
                }
            }
        }
        false
    }
    fn apply(&mut self, st: &mut Store, op: &Op) {
        match op.body {
            Body::Insert { slot, run, len: 1 } => self.doc.insert(slot, op.dot, &[run]),
            Body::Insert { slot, run, len } => {
                self.doc.insert(slot, op.dot, &st.runs[run as usize..(run + len) as usize])
            }
            Body::Delete { target } => self.doc.delete(target, op.dot),
            Body::Propose { slot } => {
                let yes = self.judge(st, op, slot);
                if yes {
                    self.hold(op.dot, slot);
                }
                st.messages.push(Message::Vote { proposal: op.dot, voter: self.site, yes });
            }
            Body::Commit { proposal } => self.end(st, op.dot, proposal, true),
            Body::Abort { proposal } => self.end(st, op.dot, proposal, false),
        }
        self.have[site_of(op.dot)] += 1;
        self.deps = None;
    }
    fn judge(&mut self, st: &Store, op: &Op, slot: Slot) -> bool {
        if slot != ROOT && !self.doc.has(slot.atom()) {
            return false;
        }
        // Where V covers `have`, each row and delete is known.
        let all = (0..st.n).all(|s| self.have[s] <= st.dep(op, s));
        if !all && !self.doc.known(slot, &|d| st.has(op, d)) {
            return false;
        }
        if self.held(|d, h| d.overlap(h, slot)).is_some() {
            return false;
        }
        for s in 0..st.n {
            for &(q, c) in self.commits[s].iter().rev() {
                if q <= st.dep(op, s) {
                    break;
                }
                if c != ROOT && !self.doc.has(c.atom()) || self.doc.overlap(c, slot) {
                    return false;
                }
            }
        }
        true
    }
}
