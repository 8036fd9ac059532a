//! Whether a trace is one that live replicas may have made: `check`.
//!
//! Each site's replica goes through its entries again, in rounds over the sites, as far as what they use is made. Of
//! an operation that comes late or again only its dot and its dependencies are looked at, and these are counted
//! before, from the entries of its own site.

use crate::replica::{self, Message, Replica, Store};
use crate::{doc::Doc, ids::*, seq::Seq, trace::*};
use std::collections::{BTreeSet, HashMap, HashSet};

/// The line that is not right, and the word for it.
pub struct No(pub u32, pub &'static str);

pub fn check(bytes: &[u8]) -> Result<(), No> {
    if bytes.len() > 536_870_912 {
        return Err(No(0, "size"));
    }
    let (mut counts, mut calls) = (vec![], vec![]);
    let mut told = |n, site: usize, entry: Option<&Entry>| match entry {
        None => {
            counts.push(Count::new(site, n));
            calls.push(vec![]);
        }
        Some(entry) => {
            counts[site].add(entry);
            calls[site].push(if matches!(entry.input, Input::Ask(_)) { Calls::None } else { Calls::NoRequest });
        }
    };
    let trace = Trace::read(bytes, &mut told).map_err(|line| No(line, "form"))?;
    let editors = trace.editors();
    let mut replay = Replay::new(&trace, counts, looks(&editors, trace.sites()));
    replay.run()?;
    replay.find_unsent()?;
    for (home, deeds) in &editors {
        follow(deeds, &mut calls[*home], &replay.seats[*home].seen)?;
    }
    find_alone(&trace, &calls)?;
    for (site, (line, text)) in trace.texts().into_iter().enumerate() {
        if replay.text(site) != text {
            return Err(No(line, "text"));
        }
    }
    let first = replay.seats.first().map(|seat| &seat.replica.have);
    let at_rest = |seat: &Seat| seat.replica.undecided == 0 && Some(&seat.replica.have) == first;
    if replay.seats.iter().all(at_rest) { Ok(()) } else { Err(No(trace.end, "open")) }
}

// What the entries of a site say that it made.

const NO_ROW: u32 = u32::MAX;

struct Count {
    site: usize,
    have: Vec<u32>,
    yes: HashMap<Dot, usize>,
    no: HashSet<Dot>,
    rows: Vec<u32>, // what operations depend on, one number per site; the own number is not looked at
    row_of: Vec<u32>,
    same: bool, // the last row is `have`
}

impl Count {
    fn new(site: usize, n: usize) -> Count {
        let (yes, no) = (HashMap::new(), HashSet::new());
        Count { site, have: vec![0; n], yes, no, rows: vec![], row_of: vec![], same: false }
    }
    fn add(&mut self, entry: &Entry) {
        for _ in 0..self.makes(entry) {
            self.push();
        }
        match uses(entry) {
            Some(d) if site_of(d) != self.site && site_of(d) < self.have.len() => {
                self.have[site_of(d)] += 1;
                self.same = false;
            }
            _ => {}
        }
    }
    /// How many operations an entry makes.
    fn makes(&mut self, entry: &Entry) -> u32 {
        match (entry.input, entry.reply) {
            (Input::Ask(Request::Propose(_) | Request::ProposeAt(..)), Reply::Made(_)) if self.have.len() == 1 => 2,
            (_, Reply::Made(_) | Reply::Cancelled) => 1,
            (Input::TakeVote { proposal, yes: false, .. }, Reply::New) => self.no.insert(proposal) as u32,
            (Input::TakeVote { proposal, .. }, Reply::New) => {
                let count = self.yes.entry(proposal).or_insert(1); // the own one
                *count += 1;
                (*count == self.have.len()) as u32
            }
            _ => 0,
        }
    }
    fn push(&mut self) {
        if !self.same {
            self.rows.extend_from_slice(&self.have);
            self.same = true;
        }
        // (a vector's numbers go to 65,535)
        let others = self.have.iter().enumerate().filter(|(s, _)| *s != self.site);
        let fits = self.row_of.len() < 65_535 && others.map(|(_, k)| *k).all(|k| k <= 65_535);
        let row = (self.rows.len() / self.have.len() - 1) as u32;
        self.row_of.push(if fits { row } else { NO_ROW });
    }
    /// What the operation of this site depends on, if there is one.
    fn deps(&self, d: Dot) -> Option<Deps<'_>> {
        let row = *self.row_of.get(seq_of(d) as usize - 1)?;
        let n = self.have.len();
        (row != NO_ROW).then(|| Deps { dot: d, row: &self.rows[row as usize * n..][..n] })
    }
}

struct Deps<'a> {
    dot: Dot,
    row: &'a [u32],
}

impl Deps<'_> {
    fn get(&self, site: usize) -> u32 {
        if site == site_of(self.dot) { seq_of(self.dot) - 1 } else { self.row[site] }
    }
}

fn uses(entry: &Entry) -> Option<Dot> {
    match (entry.input, entry.reply) {
        (Input::TakeOp(d), Reply::New) | (Input::Next, Reply::Taken(d)) => Some(d),
        _ => None,
    }
}

// The replay.

struct Seat<'a> {
    replica: Replica<Seq>,
    waiting: BTreeSet<Dot>,
    done: usize,
    awaits: Option<Dot>,
    looks: Vec<Look<'a>>, // by `upto`
    looked: usize,        // how many of them were reached
    seen: HashSet<u32>,   // the lines of those that are true
}

struct Look<'a> {
    upto: u64,
    line: u32,
    text: &'a [u8],
}

/// What an entry comes to.
enum Judged {
    Lost,
    Waits(Dot),
    Says(bool), // whether it has the reply
}
use Judged::*;

struct Replay<'a> {
    trace: &'a Trace<'a>,
    counts: Vec<Count>,
    st: Store,
    atoms: Atoms,
    seats: Vec<Seat<'a>>,
}

impl<'a> Replay<'a> {
    fn new(trace: &'a Trace<'a>, counts: Vec<Count>, looks: Vec<Vec<Look<'a>>>) -> Self {
        let n = trace.sites();
        let seat = |(site, looks)| Seat {
            replica: Replica::new(site, n),
            waiting: BTreeSet::new(),
            done: 0,
            awaits: None,
            looks,
            looked: 0,
            seen: HashSet::new(),
        };
        let seats = looks.into_iter().enumerate().map(seat).collect();
        Replay { trace, counts, st: Store::new(n), atoms: Atoms::default(), seats }
    }
    fn run(&mut self) -> Result<(), No> {
        loop {
            let mut moved = false;
            for site in 0..self.seats.len() {
                moved |= self.visit(site)?;
            }
            let left = (0..self.seats.len()).find(|&s| self.seats[s].done < self.trace.len(s));
            match left {
                None => return Ok(()),
                Some(s) if !moved => return Err(No(self.trace.line(s, self.seats[s].done), "missing")),
                _ => {}
            }
        }
    }
    /// Goes on at a site as far as it can, and answers whether anything was done.
    fn visit(&mut self, site: usize) -> Result<bool, No> {
        if self.seats[site].awaits.is_some_and(|d| self.st.number(d).is_none()) {
            return Ok(false);
        }
        self.seats[site].awaits = None;
        let from = self.seats[site].done;
        self.look(site);
        while let Some(entry) = self.trace.entry(site, self.seats[site].done) {
            let line = self.trace.line(site, self.seats[site].done);
            match self.judge(site, &entry) {
                Lost => return Err(No(line, "missing")),
                Says(false) => return Err(No(line, "reply")),
                Waits(d) => {
                    self.seats[site].awaits = Some(d);
                    break;
                }
                Says(true) => self.seats[site].done += 1,
            }
            self.look(site);
        }
        Ok(self.seats[site].done > from)
    }
    fn judge(&mut self, site: usize, entry: &Entry) -> Judged {
        match entry.input {
            Input::Ask(request) => Says(self.ask(site, request) == entry.reply),
            Input::TakeOp(d) => self.judge_op(site, d, entry.reply),
            Input::TakeVote { voter, proposal, .. } if voter == site || site_of(proposal) != site => Lost,
            Input::TakeVote { voter, proposal, yes } => Says(self.count(site, voter, proposal, yes) == entry.reply),
            Input::Next => self.judge_next(site, entry.reply),
        }
    }
    fn judge_op(&mut self, site: usize, d: Dot, reply: Reply) -> Judged {
        if site_of(d) == site || !self.is_told(d) {
            return Lost;
        }
        if reply != Reply::New {
            return Says(self.offer(site, d) == Some(reply));
        }
        match self.st.number(d) {
            None => Waits(d),
            Some(k) => Says(!self.seats[site].waiting.contains(&d) && self.take(site, k)),
        }
    }
    fn judge_next(&mut self, site: usize, reply: Reply) -> Judged {
        let Reply::Taken(d) = reply else {
            return Says(reply == Reply::Idle && self.least_ready(site).is_none());
        };
        if site_of(d) == site || !self.is_told(d) {
            return Lost;
        }
        let Some(k) = self.st.number(d) else { return Waits(d) };
        Says(self.least_ready(site) == Some(d) && self.seats[site].waiting.remove(&d) && self.take(site, k))
    }
    fn deps(&self, d: Dot) -> Option<Deps<'_>> {
        self.counts.get(site_of(d))?.deps(d)
    }
    /// Whether an entry made it, by what the entries of its site say.
    fn is_told(&self, d: Dot) -> bool {
        self.deps(d).is_some()
    }
    fn text(&self, site: usize) -> Vec<u8> {
        let mut out = vec![];
        self.seats[site].replica.doc.text(u32::MAX, &mut |a| self.atoms.print(a, &mut out));
        out
    }

    // Steps of the machine of a site.

    fn ask(&mut self, site: usize, request: Request) -> Reply {
        let (r, st) = (&mut self.seats[site].replica, &mut self.st);
        let reply = match request {
            Request::Insert(index, run) => r.insert(st, index, &run.atoms(&mut self.atoms)),
            Request::InsertAfter(None, run) => r.insert(st, 0, &run.atoms(&mut self.atoms)),
            Request::InsertAfter(Some(id), run) => match r.doc.index_of(id) {
                None => return Reply::Gone(id),
                Some(index) => r.insert(st, index + 1, &run.atoms(&mut self.atoms)),
            },
            Request::Delete(index) => r.delete(st, index),
            Request::DeleteAtom(id) => match r.doc.index_of(id) {
                None => return Reply::Gone(id),
                Some(_) => r.delete_atom(st, id),
            },
            Request::Propose(slot) if slot != ROOT && !r.doc.has(slot.atom()) => return Reply::Gone(slot.atom()),
            Request::Propose(slot) => r.propose(st, slot),
            Request::ProposeAt(index, bit) => r.propose_at(st, index, bit),
            Request::Cancel(proposal) => match r.cancel(st, proposal) {
                replica::Reply::Cancelled => return Reply::Cancelled,
                _ => return Reply::NotOpen(proposal),
            },
        };
        edited(reply)
    }
    /// An operation that really was made: whether it is new.
    fn take(&mut self, site: usize, k: u32) -> bool {
        let (r, st) = (&mut self.seats[site].replica, &mut self.st);
        let op = st.ops[k as usize];
        r.fits(&op) && matches!(r.take(st, Message::Op(k)), replica::Reply::New)
    }
    /// An operation of which only dot and dependencies are known. None where they do not decide, or it is unfit.
    fn offer(&mut self, site: usize, d: Dot) -> Option<Reply> {
        let (seat, deps) = (&self.seats[site], self.deps(d)?);
        let have = &seat.replica.have;
        if seq_of(d) <= have[site_of(d)] || seat.waiting.contains(&d) {
            return Some(Reply::Repeat);
        }
        if deps.get(site) > have[site] || covers(have, &deps) {
            return None;
        }
        self.seats[site].waiting.insert(d);
        Some(Reply::Later)
    }
    fn least_ready(&self, site: usize) -> Option<Dot> {
        let seat = &self.seats[site];
        if seat.waiting.is_empty() {
            return None;
        }
        let have = &seat.replica.have;
        let next = |s: usize| dot(s, have[s] + 1);
        let is_ready = |d: &Dot| seat.waiting.contains(d) && self.deps(*d).is_some_and(|it| covers(have, &it));
        (0..have.len()).filter(|&s| have[s] < 65_535).map(next).find(is_ready)
    }
    fn count(&mut self, site: usize, voter: usize, proposal: Dot, yes: bool) -> Reply {
        let r = &mut self.seats[site].replica;
        if voter >= self.st.n || !r.has_proposed(proposal) {
            return Reply::Unfit;
        }
        match r.take(&mut self.st, Message::Vote { proposal, voter, yes }) {
            replica::Reply::New => Reply::New,
            _ => Reply::Repeat,
        }
    }

    // What is compared on the way, and at its end.

    /// Compares the looks behind as many entries as are done.
    fn look(&mut self, site: usize) {
        let seat = &self.seats[site];
        let at = |it: &Look| it.upto == seat.done as u64;
        let here = seat.looks[seat.looked..].iter().take_while(|it| at(it)).count();
        if here == 0 {
            return;
        }
        let range = seat.looked..seat.looked + here;
        // (an atom has 1 to 64 bytes, and 128 with escapes)
        let live = seat.replica.doc.live() as usize;
        let may_be = |it: &Look| live <= it.text.len() && it.text.len() <= 128 * live;
        let text = if seat.looks[range.clone()].iter().any(may_be) { self.text(site) } else { vec![] };
        let seat = &mut self.seats[site];
        for it in &seat.looks[range.clone()] {
            if may_be(it) && it.text == text {
                seat.seen.insert(it.line);
            }
        }
        seat.looked = range.end;
    }
    /// The first entry by line that takes a vote which nobody sent.
    fn find_unsent(&self) -> Result<(), No> {
        let sent = |m: &Message| match *m {
            Message::Vote { proposal, voter, yes } => Some((voter, proposal, yes)),
            Message::Op(_) => None,
        };
        let sent: HashSet<(usize, Dot, bool)> = self.st.messages.iter().filter_map(sent).collect();
        for site in 0..self.seats.len() {
            for k in 0..self.trace.len(site) {
                match self.trace.entry(site, k).map(|it| it.input) {
                    Some(Input::TakeVote { voter, proposal, yes }) if !sent.contains(&(voter, proposal, yes)) => {
                        return Err(No(self.trace.line(site, k), "missing"));
                    }
                    _ => {}
                }
            }
        }
        Ok(())
    }
}

fn covers(have: &[u32], deps: &Deps) -> bool {
    (0..have.len()).all(|s| deps.get(s) <= have[s])
}

/// The reply to an edit or a proposal.
fn edited(reply: replica::Reply) -> Reply {
    match reply {
        replica::Reply::Made(d) => Reply::Made(d),
        replica::Reply::Held(by) => Reply::Held(by),
        replica::Reply::Position(len) => Reply::Position(len),
        replica::Reply::Limit(made, undecided) => Reply::Limit(made, undecided),
        _ => unreachable!(),
    }
}

// Editors.

/// How many calls an entry has.
#[derive(Clone, Copy, PartialEq)]
enum Calls {
    NoRequest,
    None,
    One,
    More,
}

/// The looks at each site, by `upto`.
fn looks<'a>(editors: &[(usize, Vec<(u32, Deed<'a>)>)], sites: usize) -> Vec<Vec<Look<'a>>> {
    let mut all: Vec<Vec<Look>> = (0..sites).map(|_| vec![]).collect();
    for (home, deeds) in editors {
        for (line, deed) in deeds {
            if let Deed::Look { upto, text, .. } = *deed {
                all[*home].push(Look { upto, line: *line, text });
            }
        }
    }
    for it in &mut all {
        it.sort_by_key(|look| look.upto);
    }
    all
}

/// Follows an editor against the requests of its site and the looks that are true there.
fn follow(deeds: &[(u32, Deed)], calls: &mut [Calls], seen: &HashSet<u32>) -> Result<(), No> {
    let (mut count, mut last, mut upto_before) = (0, 0, 0);
    for (line, deed) in deeds {
        match *deed {
            Deed::Call { number, entry } => {
                let is_next = number == count + 1 && entry > last && entry <= calls.len() as u64;
                if !is_next || calls[entry as usize - 1] == Calls::NoRequest {
                    return Err(No(*line, "call"));
                }
                let it = &mut calls[entry as usize - 1];
                *it = if *it == Calls::None { Calls::One } else { Calls::More };
                (count, last) = (number, entry);
            }
            Deed::Look { calls: number, upto, .. } => {
                if number != count || upto < last || upto < upto_before || !seen.contains(line) {
                    return Err(No(*line, "look"));
                }
                upto_before = upto;
            }
        }
    }
    Ok(())
}

/// The first request that is no call's entry, or that of two.
fn find_alone(trace: &Trace, calls: &[Vec<Calls>]) -> Result<(), No> {
    for (site, calls) in calls.iter().enumerate() {
        let is_alone = |it: &Calls| matches!(it, Calls::None | Calls::More);
        if let Some(k) = calls.iter().position(is_alone) {
            return Err(No(trace.line(site, k), "alone"));
        }
    }
    Ok(())
}
