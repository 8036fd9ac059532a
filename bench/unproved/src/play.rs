//! Plays a script and prints its replies.

use crate::{doc::*, ids::*, replica::*, script::*, world::*};
use std::io::Write;

/// Bytes on their way to standard output.
pub struct Out {
    pub bytes: Vec<u8>,
    pub failed: bool,
    pub quiet: bool,
}

impl Out {
    pub fn flush(&mut self) {
        if !self.failed && std::io::stdout().write_all(&self.bytes).and_then(|_| std::io::stdout().flush()).is_err() {
            self.failed = true;
        }
        self.bytes.clear();
    }
    fn step(&mut self) {
        if self.quiet {
            self.bytes.clear();
        } else if self.bytes.len() > 1 << 20 {
            self.flush();
        }
    }
}

struct D(Dot);
impl std::fmt::Display for D {
    fn fmt(&self, f: &mut std::fmt::Formatter) -> std::fmt::Result {
        write!(f, "{}.{}", site_of(self.0) + 1, seq_of(self.0))
    }
}
struct I(Id);
impl std::fmt::Display for I {
    fn fmt(&self, f: &mut std::fmt::Formatter) -> std::fmt::Result {
        write!(f, "{}", D(dot_of(self.0)))?;
        if self.0 & 63 != 0 {
            write!(f, "+{}", self.0 & 63)?;
        }
        Ok(())
    }
}

macro_rules! put {
    ($o:expr, $($a:tt)*) => { write!($o.bytes, $($a)*).unwrap() };
}

fn refused(o: &mut Out, r: &Option<Reply>) {
    match r {
        Some(Reply::Held(by)) => put!(o, " held {}", D(*by)),
        Some(Reply::Position(len)) => put!(o, " position {len}"),
        Some(Reply::Limit(a, b)) => put!(o, " limit {a} {b}"),
        _ => {}
    }
    o.bytes.push(b'\n');
}

fn given(o: &mut Out, to: usize, number: u64, g: &Given) {
    put!(o, "give {} {number} ", to + 1);
    match g {
        Given::NoSuch => put!(o, "none\n"),
        Given::Stray => put!(o, "stray\n"),
        Given::Took(Reply::Later, _) => put!(o, "later\n"),
        Given::Took(Reply::Repeat, _) => put!(o, "repeat\n"),
        Given::Took(_, k) => put!(o, "new {k}\n"),
    }
}

/// Prints the events among the messages from `seen` on.
fn events<T: Doc>(o: &mut Out, w: &World<T>, seen: &mut usize) {
    for m in &w.st.messages[*seen..] {
        match *m {
            Message::Vote { proposal, voter, yes } => {
                put!(o, "vote {} {} {}\n", voter + 1, D(proposal), if yes { "yes" } else { "no" })
            }
            Message::Op(k) => {
                let op = w.st.ops[k as usize];
                match op.body {
                    Body::Commit { proposal } => put!(o, "decide {} {} commit\n", site_of(op.dot) + 1, D(proposal)),
                    Body::Abort { proposal } => put!(o, "decide {} {} abort\n", site_of(op.dot) + 1, D(proposal)),
                    _ => {}
                }
            }
        }
    }
    *seen = w.st.messages.len();
}

fn tree<T: Doc>(o: &mut Out, r: &Replica<T>, atoms: &Atoms) {
    put!(o, "tree {} {}\n", r.site + 1, r.doc.rows());
    // First the slot of each row, in the order of their atoms; a row's slot is known when it opens.
    let mut slots: Vec<(usize, u32)> = vec![]; // the row by its place in `rows`, usize::MAX for Root
    let mut rows: Vec<(Id, usize, u32, Atom, Vec<Dot>)> = vec![];
    let mut ids: Vec<Id> = vec![]; // by opening
    let mut stack: Vec<(usize, u32)> = vec![(usize::MAX, 0)]; // the open row and the side that stands open
    r.doc.walk(&mut |s| match s {
        Step::Open => {
            slots.push(*stack.last().unwrap());
            stack.push((ids.len(), LEFT));
            ids.push(0);
        }
        Step::Atom { id, atom, dead } => {
            let (me, _) = stack.pop().unwrap();
            ids[me] = id;
            stack.push((me, RIGHT));
            rows.push((id, slots[me].0, slots[me].1, atom, dead.to_vec()));
        }
        Step::Close => {
            stack.pop();
        }
    });
    for (id, up, bit, atom, dead) in rows {
        put!(o, "{} ", I(id));
        if up == usize::MAX {
            put!(o, "root \"");
        } else {
            put!(o, "{} {} \"", I(ids[up]), if bit == LEFT { "left" } else { "right" });
        }
        atoms.print(atom, &mut o.bytes);
        o.bytes.push(b'"');
        if !dead.is_empty() {
            put!(o, " dead");
            for d in dead {
                put!(o, " {}", D(d));
            }
        }
        o.bytes.push(b'\n');
        o.step();
    }
}

pub fn play<T: Doc>(s: &Script, o: &mut Out, audit: bool) -> World<T> {
    let mut w = World::<T>::new(s.sites.max(1));
    let mut seen = 0;
    for c in &s.commands {
        match c {
            Command::Sites(_) => {}
            Command::Ins(r, i, atoms) => {
                let (mut done, mut no) = (0, None);
                for (j, a) in atoms.iter().enumerate() {
                    match w.sites[*r].insert(&mut w.st, i + j as u32, std::slice::from_ref(a)) {
                        Reply::Made(_) => done += 1,
                        x => {
                            no = Some(x);
                            break;
                        }
                    }
                }
                put!(o, "ins {} {done}/{}", r + 1, atoms.len());
                refused(o, &no);
            }
            Command::Paste(r, i, all) => {
                let (mut done, mut no) = (0, None);
                while done < all.len() {
                    let (mut k, mut bytes) = (0, 0);
                    while done + k < all.len() && bytes + s.atoms.len(all[done + k]) <= 64 {
                        bytes += s.atoms.len(all[done + k]);
                        k += 1;
                    }
                    match w.sites[*r].insert(&mut w.st, i + done as u32, &all[done..done + k]) {
                        Reply::Made(_) => done += k,
                        x => {
                            no = Some(x);
                            break;
                        }
                    }
                }
                put!(o, "paste {} {done}/{}", r + 1, all.len());
                refused(o, &no);
            }
            Command::Del(r, i, k) => {
                let (mut done, mut no) = (0, None);
                while done < *k {
                    match w.sites[*r].delete(&mut w.st, *i) {
                        Reply::Made(_) => done += 1,
                        x => {
                            no = Some(x);
                            break;
                        }
                    }
                }
                put!(o, "del {} {done}/{k}", r + 1);
                refused(o, &no);
            }
            Command::Flat(r, place) => {
                let site = &mut w.sites[*r];
                let reply = match *place {
                    Place::Whole => site.propose(&mut w.st, ROOT),
                    Place::Beside(i, bit) => site.propose_at(&mut w.st, i, bit),
                };
                put!(o, "flat {}", r + 1);
                match reply {
                    Reply::Made(d) => put!(o, " {}\n", D(d)),
                    x => refused(o, &Some(x)),
                }
            }
            Command::Cancel(r, p) => {
                let ok = matches!(w.sites[*r].cancel(&mut w.st, *p), Reply::Cancelled);
                put!(o, "cancel {} {} {}\n", r + 1, D(*p), if ok { "ok" } else { "notopen" });
            }
            Command::Give(r, m) => {
                let g = w.give(*r, *m);
                given(o, *r, *m, &g);
            }
            Command::GiveAll(r) => w.give_all(*r, &mut |w, m, g| {
                given(o, *r, m, &g);
                events(o, w, &mut seen);
                o.step();
            }),
            Command::Settle => {
                let k = w.settle(&mut |w| events(o, w, &mut seen));
                put!(o, "settle {k}\n");
            }
            Command::Show(r) => {
                put!(o, "show {} \"", r + 1);
                w.sites[*r].doc.text(u32::MAX, &mut |a| s.atoms.print(a, &mut o.bytes));
                put!(o, "\"\n");
            }
            Command::Tree(r) => tree(o, &w.sites[*r], &s.atoms),
            Command::Count(r) => {
                let x = &w.sites[*r];
                let (l, n) = (x.doc.live(), x.doc.rows());
                put!(o, "count {} live {l} rows {n} waiting {} holds {}\n", r + 1, x.waits, x.holds.len());
            }
        }
        events(o, &w, &mut seen);
        o.step();
        if audit {
            // Every moment: the invariants of the document, and convergent text.
            for r in &w.sites {
                r.doc.audit();
                if w.st.ops.len() <= 300 && w.st.n <= 5 {
                    let mut text = vec![];
                    r.doc.text(u32::MAX, &mut |a| text.push(a));
                    assert_eq!(text, crate::shown::show(&w.st, &r.have));
                }
            }
            if w.st.ops.len() <= 300 && w.st.n <= 5 {
                let made: Vec<u32> = w.sites.iter().map(|r| r.made()).collect();
                let (all, _) = crate::shown::order(&w.st, &made);
                for r in &w.sites {
                    assert!(crate::shown::stable(&w.st, &r.have, &all), "the order of a part");
                }
            }
        }
    }
    w
}

pub fn gen<T: Doc>(size: u32, number: u32, o: &mut Out) {
    let s = crate::gen::script_of(size, number);
    o.quiet = true;
    let w = play::<T>(&s, o, false);
    o.quiet = false;
    put!(o, "gen {size} {number}\ncommands {}\n", s.commands.len());
    for r in &w.sites {
        put!(o, "site {} live {} rows {} made {}\n", r.site + 1, r.doc.live(), r.doc.rows(), r.made());
    }
    put!(o, "head \"");
    w.sites[0].doc.text(32, &mut |a| s.atoms.print(a, &mut o.bytes));
    put!(o, "\"\n");
}
