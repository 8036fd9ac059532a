//! Replicas and the messages between them.

use crate::{doc::Doc, replica::*};

pub struct World<D> {
    pub st: Store,
    pub sites: Vec<Replica<D>>,
    /// Per site a number below which every message is known to it or not for it.
    done: Vec<usize>,
}

pub enum Given {
    NoSuch,
    Stray,
    Took(Reply, u32),
}

impl<D: Doc> World<D> {
    pub fn new(n: usize) -> Self {
        World { st: Store::new(n), sites: (0..n).map(|s| Replica::new(s, n)).collect(), done: vec![0; n] }
    }
    fn is_for(&self, m: Message, to: usize) -> bool {
        match m {
            Message::Op(k) => crate::ids::site_of(self.st.ops[k as usize].dot) != to,
            Message::Vote { proposal, .. } => crate::ids::site_of(proposal) == to,
        }
    }
    fn deliver(&mut self, to: usize, m: Message) -> Given {
        let r = &mut self.sites[to];
        let reply = r.take(&mut self.st, m);
        let mut k = 0;
        while r.next(&mut self.st) {
            k += 1;
        }
        Given::Took(reply, k)
    }
    pub fn give(&mut self, to: usize, number: u64) -> Given {
        if number < 1 || number > self.st.messages.len() as u64 {
            return Given::NoSuch;
        }
        let m = self.st.messages[number as usize - 1];
        if !self.is_for(m, to) {
            return Given::Stray;
        }
        self.deliver(to, m)
    }
    /// `f` is told of each message given, after it.
    pub fn give_all(&mut self, to: usize, f: &mut dyn FnMut(&mut Self, u64, Given)) {
        let end = self.st.messages.len();
        for i in self.done[to]..end {
            let m = self.st.messages[i];
            if self.is_for(m, to) && !self.sites[to].known(&self.st, m) {
                let given = self.deliver(to, m);
                f(self, i as u64 + 1, given);
            }
        }
        self.done[to] = end;
    }
    pub fn settle(&mut self, f: &mut dyn FnMut(&mut Self)) -> u64 {
        let mut all = 0;
        loop {
            let before = all;
            for s in 0..self.st.n {
                self.give_all(s, &mut |w, _, _| {
                    all += 1;
                    f(w)
                });
            }
            if all == before {
                return all;
            }
        }
    }
}
