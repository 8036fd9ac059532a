//! The bracketed sequence: the tree of rows as one list of tokens in an order-statistics list.
//!
//! A node row r stands as three tokens `open r`, `atom r`, `close r`; between the first two lies its left
//! slot, between the last two its right slot. A leaf is one token that stands for the rows lo..hi of an
//! array, in the implied shape. The list is a list of groups of chunks of tokens; `home` leads from a token
//! to its chunk. `audit` checks the invariants.

use crate::{doc::*, ids::*};
use std::collections::HashMap;

const CH: usize = 256; // tokens in a chunk
const GR: usize = 128; // chunks in a group
const RUN_LEAF: usize = 4; // from this length on a pasted run stands as a leaf

const NONE: u32 = u32::MAX;
const LEAF: u32 = 1 << 31;
const OPEN: u32 = 0;
const CLOSE: u32 = 1;
const DEAD: u32 = 2;
const LIVE: u32 = 3;

// Rows::del: 0 a live node, a dot (perhaps with MORE) a dead node, or one of these.
const IN_ARRAY: u32 = 1 << 31;
const MORE: u32 = 1 << 30;
const GONE: u32 = u32::MAX;

/// The rows that ever came, by number. A column is a list of its own: a flatten writes few columns.
#[derive(Default)]
struct Rows {
    id: Vec<Id>,
    atom: Vec<Atom>,
    del: Vec<u32>,
    /// A node: the chunks of its open, close and atom token. In an array: the leaf whose top it is (if it is
    /// one), its index, the array.
    home: [Vec<u32>; 3],
}

struct Array {
    rows: Vec<u32>,
    left: u32, // rows that still stand in it
}

#[derive(Clone, Copy)]
struct Leaf {
    array: u32,
    lo: u32,
    hi: u32,
    chunk: u32,
}

#[derive(Default)]
struct Chunk {
    toks: Vec<u32>,
    group: u32,
    w: u64, // rows << 32 | live
}

#[derive(Default)]
struct Group {
    kids: Vec<u32>,
    rank: u32,
    w: u64,
}

#[derive(Clone, Copy, PartialEq, Debug)]
struct Pos {
    c: u32,
    o: u32,
}

#[derive(Clone, Copy)]
struct Last {
    row: u32,
    at: Pos,    // of its atom token
    index: u32, // its live index where it is known, else NONE
}

pub struct Seq {
    rows: Rows,
    base: Vec<Vec<u32>>, // per site and seq - 1: the first row of that insert, or NONE
    more: HashMap<u32, Vec<Dot>>,
    arrays: Vec<Array>,
    free_arrays: Vec<u32>,
    leaves: Vec<Leaf>,
    free_leaves: Vec<u32>,
    chunks: Vec<Chunk>,
    free_chunks: Vec<u32>,
    groups: Vec<Group>,
    free_groups: Vec<u32>,
    top: Vec<u32>,
    n_rows: u32,
    n_live: u32,
    place: Pos,
    place_index: u32,
    last: Option<Last>,
    cur: Option<(u32, u32)>, // a chunk and the live rows before it
}

fn find(toks: &[u32], x: u32) -> u32 {
    let mut i = 0;
    for b in toks.chunks_exact(32) {
        let mut m = 0u32;
        for &t in b {
            m |= (t == x) as u32;
        }
        if m != 0 {
            break;
        }
        i += 32;
    }
    while toks[i] != x {
        i += 1;
    }
    i as u32
}

impl Seq {
    fn row(&self, id: Id) -> Option<u32> {
        let d = dot_of(id);
        let b = *self.base.get(site_of(d))?.get(seq_of(d) as usize - 1)?;
        if b == NONE {
            return None;
        }
        let r = b + (id & 63);
        (*self.rows.id.get(r as usize)? == id && self.rows.del[r as usize] != GONE).then_some(r)
    }
    fn atom_tok(&self, r: u32) -> u32 {
        r << 2 | if self.rows.del[r as usize] == 0 { LIVE } else { DEAD }
    }
    fn weight(&self, t: u32) -> u64 {
        if t & LEAF != 0 {
            let l = self.leaves[(t & !LEAF) as usize];
            (l.hi - l.lo) as u64 * (1 << 32 | 1)
        } else {
            match t & 3 {
                LIVE => 1 << 32 | 1,
                DEAD => 1 << 32,
                _ => 0,
            }
        }
    }
    fn wsum(&self, toks: &[u32]) -> u64 {
        toks.iter().map(|&t| self.weight(t)).sum()
    }
    fn set_home(&mut self, t: u32, c: u32) {
        if t & LEAF != 0 {
            self.leaves[(t & !LEAF) as usize].chunk = c;
        } else {
            self.rows.home[(t & 3).min(2) as usize][(t >> 2) as usize] = c;
        }
    }

    // Positions.

    fn pos_atom(&self, r: u32) -> Pos {
        let c = self.rows.home[2][r as usize];
        Pos { c, o: find(&self.chunks[c as usize].toks, self.atom_tok(r)) }
    }
    fn pos_open(&self, r: u32) -> Pos {
        let c = self.rows.home[0][r as usize];
        Pos { c, o: find(&self.chunks[c as usize].toks, r << 2 | OPEN) }
    }
    fn pos_close(&self, r: u32) -> Pos {
        let c = self.rows.home[1][r as usize];
        Pos { c, o: find(&self.chunks[c as usize].toks, r << 2 | CLOSE) }
    }
    fn pos_leaf(&self, l: u32) -> Pos {
        let c = self.leaves[l as usize].chunk;
        Pos { c, o: find(&self.chunks[c as usize].toks, LEAF | l) }
    }
    fn index_in_group(&self, c: u32) -> usize {
        let g = &self.groups[self.chunks[c as usize].group as usize];
        find(&g.kids, c) as usize
    }
    fn key(&self, p: Pos) -> u64 {
        let g = self.chunks[p.c as usize].group;
        (self.groups[g as usize].rank as u64) << 40 | (self.index_in_group(p.c) as u64) << 20 | p.o as u64
    }
    fn next_chunk(&self, c: u32) -> Option<u32> {
        let g = &self.groups[self.chunks[c as usize].group as usize];
        let i = find(&g.kids, c) as usize;
        if i + 1 < g.kids.len() {
            return Some(g.kids[i + 1]);
        }
        let h = *self.top.get(g.rank as usize + 1)?;
        Some(self.groups[h as usize].kids[0])
    }
    fn prev_chunk(&self, c: u32) -> Option<u32> {
        let g = &self.groups[self.chunks[c as usize].group as usize];
        let i = find(&g.kids, c) as usize;
        if i > 0 {
            return Some(g.kids[i - 1]);
        }
        if g.rank == 0 {
            return None;
        }
        self.groups[self.top[g.rank as usize - 1] as usize].kids.last().copied()
    }
    fn first(&self) -> Pos {
        Pos { c: self.groups[self.top[0] as usize].kids[0], o: 0 }
    }
    fn end(&self) -> Pos {
        let c = *self.groups[*self.top.last().unwrap() as usize].kids.last().unwrap();
        Pos { c, o: self.chunks[c as usize].toks.len() as u32 }
    }
    /// The token at a position, with the position made to point at it; None at the end.
    fn at(&self, mut p: Pos) -> Option<(Pos, u32)> {
        loop {
            if let Some(&t) = self.chunks[p.c as usize].toks.get(p.o as usize) {
                return Some((p, t));
            }
            p = Pos { c: self.next_chunk(p.c)?, o: 0 };
        }
    }
    fn before(&self, p: Pos) -> Option<u32> {
        if p.o > 0 {
            return Some(self.chunks[p.c as usize].toks[p.o as usize - 1]);
        }
        self.chunks[self.prev_chunk(p.c)? as usize].toks.last().copied()
    }

    // The list of lists.

    fn new_chunk(&mut self) -> u32 {
        if let Some(c) = self.free_chunks.pop() {
            return c;
        }
        self.chunks.push(Chunk::default());
        self.chunks.len() as u32 - 1
    }
    fn new_group(&mut self) -> u32 {
        if let Some(g) = self.free_groups.pop() {
            return g;
        }
        self.groups.push(Group::default());
        self.groups.len() as u32 - 1
    }
    fn rerank(&mut self, from: usize) {
        for i in from..self.top.len() {
            self.groups[self.top[i] as usize].rank = i as u32;
        }
    }
    fn reset(&mut self) {
        self.chunks.clear();
        self.free_chunks.clear();
        self.groups.clear();
        self.free_groups.clear();
        self.top.clear();
        let (c, g) = (self.new_chunk(), self.new_group());
        self.chunks[c as usize].group = g;
        self.groups[g as usize].kids.push(c);
        self.top.push(g);
        self.last = None;
        self.cur = None;
    }
    /// A new chunk right after `c`, without tokens.
    fn chunk_after(&mut self, c: u32) -> u32 {
        let d = self.new_chunk();
        let g = self.chunks[c as usize].group;
        self.chunks[d as usize].group = g;
        let i = self.index_in_group(c);
        let kids = &mut self.groups[g as usize].kids;
        kids.insert(i + 1, d);
        if kids.len() > GR {
            let upper = kids.split_off(GR / 2);
            let h = self.new_group();
            let mut w = 0;
            for &k in &upper {
                self.chunks[k as usize].group = h;
                w += self.chunks[k as usize].w;
            }
            self.groups[g as usize].w -= w;
            self.groups[h as usize].w = w;
            self.groups[h as usize].kids = upper;
            let at = self.groups[g as usize].rank as usize + 1;
            self.top.insert(at, h);
            self.rerank(at);
        }
        d
    }
    fn remove_chunk(&mut self, c: u32) {
        let g = self.chunks[c as usize].group;
        let i = self.index_in_group(c);
        let group = &mut self.groups[g as usize];
        group.kids.remove(i);
        group.w -= self.chunks[c as usize].w;
        self.chunks[c as usize].w = 0;
        self.chunks[c as usize].toks.clear();
        self.free_chunks.push(c);
        if self.groups[g as usize].kids.is_empty() {
            let at = self.groups[g as usize].rank as usize;
            self.top.remove(at);
            self.rerank(at);
            self.groups[g as usize].w = 0;
            self.free_groups.push(g);
        }
    }
    fn add(&mut self, c: u32, w: u64) {
        let ch = &mut self.chunks[c as usize];
        ch.w = ch.w.wrapping_add(w);
        let g = &mut self.groups[ch.group as usize];
        g.w = g.w.wrapping_add(w);
    }
    /// Moves the tokens `from..` of c to the front of d.
    fn move_tail(&mut self, c: u32, from: usize, d: u32) {
        let tail = self.chunks[c as usize].toks.split_off(from);
        for &t in &tail {
            self.set_home(t, d);
        }
        let w = self.wsum(&tail);
        let to = &mut self.chunks[d as usize].toks;
        if to.is_empty() {
            to.reserve_exact(CH.max(tail.len()));
        }
        to.splice(0..0, tail);
        self.add(c, w.wrapping_neg());
        self.add(d, w);
    }
    /// Moves the first `n` tokens of c to the end of d.
    fn move_head(&mut self, c: u32, n: usize, d: u32) {
        let head: Vec<u32> = self.chunks[c as usize].toks.drain(..n).collect();
        for &t in &head {
            self.set_home(t, d);
        }
        let w = self.wsum(&head);
        self.chunks[d as usize].toks.extend_from_slice(&head);
        self.add(c, w.wrapping_neg());
        self.add(d, w);
    }
    /// A place that means the same as p, in a chunk with room for k tokens.
    fn make_room(&mut self, p: Pos, k: usize) -> Pos {
        self.cur = None;
        let n = self.chunks[p.c as usize].toks.len();
        let o = p.o as usize;
        let g = &self.groups[self.chunks[p.c as usize].group as usize];
        let i = find(&g.kids, p.c) as usize;
        let len = |c: u32| self.chunks[c as usize].toks.len();
        if o == n {
            if i + 1 < g.kids.len() && len(g.kids[i + 1]) + k <= CH {
                return Pos { c: g.kids[i + 1], o: 0 };
            }
            let c = self.chunk_after(p.c);
            self.chunks[c as usize].toks.reserve_exact(CH);
            return Pos { c, o: 0 };
        }
        let fits = |c: u32, m: usize| m >= k && len(c) + m <= CH * 7 / 8;
        if o >= n / 2 {
            if i + 1 < g.kids.len() && fits(g.kids[i + 1], n - o) {
                let d = g.kids[i + 1];
                self.move_tail(p.c, o, d);
                return p;
            }
        } else if i > 0 && fits(g.kids[i - 1], o) {
            let d = g.kids[i - 1];
            self.move_head(p.c, o, d);
            return Pos { c: p.c, o: 0 };
        }
        let d = self.chunk_after(p.c);
        self.move_tail(p.c, n / 2, d);
        if o <= n / 2 {
            p
        } else {
            Pos { c: d, o: (o - n / 2) as u32 }
        }
    }
    /// Puts tokens of weight w at p, and answers where the first of them stands.
    fn put(&mut self, mut p: Pos, toks: &[u32], w: u64) -> Pos {
        self.last = None;
        if self.chunks[p.c as usize].toks.len() + toks.len() > CH {
            p = self.make_room(p, toks.len());
        }
        if let Some((c, _)) = self.cur {
            if c != p.c {
                self.cur = None;
            }
        }
        for &t in toks {
            self.set_home(t, p.c);
        }
        let v = &mut self.chunks[p.c as usize].toks;
        let (n, o, k) = (v.len(), p.o as usize, toks.len());
        v.resize(n + k, 0);
        v.copy_within(o..n, o + k);
        v[o..o + k].copy_from_slice(toks);
        self.add(p.c, w);
        p
    }
    fn tokens(&self, mut a: Pos, b: Pos) -> Vec<u32> {
        let mut out = Vec::new();
        while a.c != b.c {
            out.extend_from_slice(&self.chunks[a.c as usize].toks[a.o as usize..]);
            a = Pos { c: self.next_chunk(a.c).unwrap(), o: 0 };
        }
        out.extend_from_slice(&self.chunks[a.c as usize].toks[a.o as usize..b.o as usize]);
        out
    }
    /// Takes out the tokens from a to b, and answers their place.
    fn cut(&mut self, a: Pos, b: Pos) -> Pos {
        self.last = None;
        self.cur = None;
        if a.c == b.c {
            let out: Vec<u32> = self.chunks[a.c as usize].toks.drain(a.o as usize..b.o as usize).collect();
            let w = self.wsum(&out);
            self.add(a.c, w.wrapping_neg());
            return a;
        }
        let mut c = self.next_chunk(a.c).unwrap();
        while c != b.c {
            let d = self.next_chunk(c).unwrap();
            self.remove_chunk(c);
            c = d;
        }
        let out = self.chunks[a.c as usize].toks.split_off(a.o as usize);
        let w = self.wsum(&out);
        self.add(a.c, w.wrapping_neg());
        let out: Vec<u32> = self.chunks[b.c as usize].toks.drain(..b.o as usize).collect();
        let w = self.wsum(&out);
        self.add(b.c, w.wrapping_neg());
        let (m, n) = (self.chunks[a.c as usize].toks.len(), self.chunks[b.c as usize].toks.len());
        if m == 0 {
            self.remove_chunk(a.c);
            return Pos { c: b.c, o: 0 };
        }
        if m + n <= CH / 2 {
            self.move_head(b.c, n, a.c);
            self.remove_chunk(b.c);
        }
        a
    }

    // Rows, leaves, slots.

    fn new_leaf(&mut self, array: u32, lo: u32, hi: u32) -> u32 {
        let leaf = Leaf { array, lo, hi, chunk: NONE };
        let l = if let Some(l) = self.free_leaves.pop() {
            self.leaves[l as usize] = leaf;
            l
        } else {
            self.leaves.push(leaf);
            self.leaves.len() as u32 - 1
        };
        let top = self.arrays[array as usize].rows[(lo + (hi - lo) / 2) as usize];
        self.rows.home[0][top as usize] = l;
        LEAF | l
    }
    fn empty_array(&mut self) -> u32 {
        if let Some(a) = self.free_arrays.pop() {
            return a;
        }
        self.arrays.push(Array { rows: Vec::new(), left: 0 });
        self.arrays.len() as u32 - 1
    }
    fn new_array(&mut self, rows: Vec<u32>) -> u32 {
        let a = self.empty_array();
        for (i, &r) in rows.iter().enumerate() {
            self.rows.del[r as usize] = IN_ARRAY;
            self.rows.home[1][r as usize] = i as u32;
            self.rows.home[2][r as usize] = a;
        }
        self.arrays[a as usize] = Array { left: rows.len() as u32, rows };
        a
    }
    fn leave_array(&mut self, a: u32, k: u32) {
        let array = &mut self.arrays[a as usize];
        array.left -= k;
        if array.left == 0 {
            array.rows = Vec::new();
            self.free_arrays.push(a);
        }
    }
    /// The leaf in which an array row stands: the first unexploded top on the way down the shape.
    fn leaf_of(&self, r: u32) -> u32 {
        let (index, a) = (self.rows.home[1][r as usize], self.rows.home[2][r as usize]);
        let rows = &self.arrays[a as usize].rows;
        let (mut lo, mut hi) = (0, rows.len() as u32);
        loop {
            let m = lo + (hi - lo) / 2;
            let top = rows[m as usize] as usize;
            if self.rows.del[top] == IN_ARRAY && self.rows.home[2][top] == a {
                return self.rows.home[0][top];
            }
            if index < m {
                hi = m;
            } else {
                lo = m + 1;
            }
        }
    }
    fn explode(&mut self, r: u32) {
        if self.rows.del[r as usize] != IN_ARRAY {
            return;
        }
        let (index, a) = (self.rows.home[1][r as usize], self.rows.home[2][r as usize]);
        let l = self.leaf_of(r);
        let Leaf { mut lo, mut hi, .. } = self.leaves[l as usize];
        let p = self.pos_leaf(l);
        let w = (hi - lo) as u64 * (1 << 32 | 1);
        let p = self.cut(p, Pos { c: p.c, o: p.o + 1 });
        self.free_leaves.push(l);
        let (mut toks, mut tail) = (Vec::with_capacity(64), Vec::with_capacity(48));
        let mut nodes = 0;
        loop {
            let m = lo + (hi - lo) / 2;
            let top = self.arrays[a as usize].rows[m as usize];
            self.rows.del[top as usize] = 0;
            nodes += 1;
            toks.push(top << 2 | OPEN);
            tail.push(top << 2 | CLOSE);
            if index < m {
                if m + 1 < hi {
                    let t = self.new_leaf(a, m + 1, hi);
                    tail.push(t);
                }
                tail.push(top << 2 | LIVE);
                hi = m;
            } else {
                if lo < m {
                    let t = self.new_leaf(a, lo, m);
                    toks.push(t);
                }
                toks.push(top << 2 | LIVE);
                if index == m {
                    if m + 1 < hi {
                        let t = self.new_leaf(a, m + 1, hi);
                        toks.push(t);
                    }
                    break;
                }
                lo = m + 1;
            }
        }
        toks.extend(tail.into_iter().rev());
        self.leave_array(a, nodes);
        self.put(p, &toks, w);
    }
    /// Where the tokens of a slot begin and end. The slot's atom is a node.
    fn range(&self, s: Slot) -> (Pos, Pos) {
        if s == ROOT {
            return (self.first(), self.end());
        }
        let x = self.row(s.atom()).unwrap();
        let mid = self.pos_atom(x);
        if s.bit() == RIGHT {
            (Pos { o: mid.o + 1, ..mid }, self.pos_close(x))
        } else {
            let a = self.pos_open(x);
            (Pos { o: a.o + 1, ..a }, mid)
        }
    }
    fn open_slot(&mut self, s: Slot) {
        if s != ROOT {
            let x = self.row(s.atom()).expect("the slot's atom is a row");
            self.explode(x);
        }
    }
    /// The token of the live row with a number, and its number inside the token.
    fn find_live(&mut self, index: u32) -> (Pos, u32) {
        let mut rem = index;
        let c = match self.cur {
            Some((c, b)) if b <= index && index - b < self.chunks[c as usize].w as u32 => {
                rem -= b;
                c
            }
            _ => {
                let mut g = 0;
                for &h in &self.top {
                    let n = self.groups[h as usize].w as u32;
                    if rem < n {
                        g = h;
                        break;
                    }
                    rem -= n;
                }
                let mut c = 0;
                for &d in &self.groups[g as usize].kids {
                    let n = self.chunks[d as usize].w as u32;
                    if rem < n {
                        c = d;
                        break;
                    }
                    rem -= n;
                }
                self.cur = Some((c, index - rem));
                c
            }
        };
        let toks = &self.chunks[c as usize].toks;
        let mut o = 0;
        for b in toks.chunks(32) {
            let (mut n, mut any) = (0u32, 0u32);
            for &t in b {
                n += (t & (LEAF | 3) == LIVE) as u32;
                any |= t;
            }
            if any & LEAF == 0 && rem >= n {
                rem -= n;
                o += b.len();
                continue;
            }
            for &t in b {
                let n = self.weight(t) as u32;
                if rem < n {
                    return (Pos { c, o: o as u32 }, rem);
                }
                rem -= n;
                o += 1;
            }
        }
        unreachable!()
    }
    /// How many live rows stand before a position.
    fn live_before(&self, p: Pos) -> u32 {
        let group = &self.groups[self.chunks[p.c as usize].group as usize];
        let groups: u32 = self.top[..group.rank as usize].iter().map(|&g| self.groups[g as usize].w as u32).sum();
        let kids = &group.kids[..find(&group.kids, p.c) as usize];
        let chunks: u32 = kids.iter().map(|&c| self.chunks[c as usize].w as u32).sum();
        groups + chunks + self.wsum(&self.chunks[p.c as usize].toks[..p.o as usize]) as u32
    }
    fn leaf_row(&self, t: u32, inner: u32) -> u32 {
        let l = self.leaves[(t & !LEAF) as usize];
        self.arrays[l.array as usize].rows[(l.lo + inner) as usize]
    }
    /// The first token at or after p that holds a row.
    fn next_row(&self, p: Pos) -> Option<(Pos, u32)> {
        let toks = &self.chunks[p.c as usize].toks;
        for o in p.o as usize..toks.len() {
            if toks[o] & LEAF != 0 || toks[o] & 2 != 0 {
                return Some((Pos { c: p.c, o: o as u32 }, toks[o]));
            }
        }
        let g = &self.groups[self.chunks[p.c as usize].group as usize];
        let i = find(&g.kids, p.c) as usize;
        let next = |kids: &[u32]| kids.iter().copied().find(|&k| self.chunks[k as usize].w != 0);
        let mut c = next(&g.kids[i + 1..]);
        if c.is_none() {
            let h = self.top[g.rank as usize + 1..].iter().find(|&&h| self.groups[h as usize].w != 0)?;
            c = next(&self.groups[*h as usize].kids);
        }
        self.next_row(Pos { c: c?, o: 0 })
    }
    /// A position of the token with a row, which becomes a node.
    fn to_node(&mut self, p: Pos, t: u32, inner: u32) -> (Pos, u32) {
        if t & LEAF == 0 {
            return (p, t >> 2);
        }
        let r = self.leaf_row(t, inner);
        self.explode(r);
        (self.pos_atom(r), r)
    }
    /// The allocation rule; the place is kept.
    fn find_place(&mut self, index: u32) -> Slot {
        if self.n_rows == 0 {
            self.place = self.first();
            return ROOT;
        }
        let from = if index == 0 {
            self.first()
        } else {
            let (p, r) = match self.last {
                Some(l) if l.index == index - 1 => (l.at, l.row),
                _ => {
                    let (p, inner) = self.find_live(index - 1);
                    let t = self.chunks[p.c as usize].toks[p.o as usize];
                    self.to_node(p, t, inner)
                }
            };
            let after = Pos { o: p.o + 1, ..p };
            if self.at(after).unwrap().1 == r << 2 | CLOSE {
                self.place = after;
                return Slot::at(self.rows.id[r as usize], RIGHT);
            }
            after
        };
        let (p, t) = self.next_row(from).unwrap();
        let (p, f) = self.to_node(p, t, 0);
        self.place = p;
        Slot::at(self.rows.id[f as usize], LEFT)
    }
    fn new_rows(&mut self, d: Dot, atoms: &[Atom]) -> u32 {
        let first = self.rows.id.len() as u32;
        let site = site_of(d);
        if self.base.len() <= site {
            self.base.resize_with(site + 1, Vec::new);
        }
        self.base[site].resize(seq_of(d) as usize - 1, NONE);
        self.base[site].push(first);
        for (i, &atom) in atoms.iter().enumerate() {
            self.rows.id.push(id(d, i as u32));
            self.rows.atom.push(atom);
            self.rows.del.push(0);
            for h in &mut self.rows.home {
                h.push(NONE);
            }
        }
        self.n_rows += atoms.len() as u32;
        self.n_live += atoms.len() as u32;
        first
    }
    fn insert_at(&mut self, p: Pos, d: Dot, atoms: &[Atom], index: u32) {
        let r = self.new_rows(d, atoms);
        let k = atoms.len();
        if k == 1 {
            let at = self.put(p, &[r << 2 | OPEN, r << 2 | LIVE, r << 2 | CLOSE], 1 << 32 | 1);
            self.last = Some(Last { row: r, at: Pos { o: at.o + 1, ..at }, index });
        } else if k < RUN_LEAF {
            let mut toks = Vec::with_capacity(3 * k);
            shape(r, 0, k as u32, &mut toks);
            self.put(p, &toks, k as u64 * (1 << 32 | 1));
        } else {
            let a = self.new_array((r..r + k as u32).collect());
            let t = self.new_leaf(a, 0, k as u32);
            self.put(p, &[t], k as u64 * (1 << 32 | 1));
        }
    }
    fn top_id(&self, t: u32) -> Id {
        let r = if t & LEAF != 0 {
            let l = self.leaves[(t & !LEAF) as usize];
            self.leaf_row(t, (l.hi - l.lo) / 2)
        } else {
            t >> 2
        };
        self.rows.id[r as usize]
    }
    /// The row's token, a leaf or its atom.
    fn pos_row(&self, r: u32) -> Pos {
        if self.rows.del[r as usize] == IN_ARRAY {
            self.pos_leaf(self.leaf_of(r))
        } else {
            self.pos_atom(r)
        }
    }
    fn dels(&self, r: u32) -> Vec<Dot> {
        let d = self.rows.del[r as usize];
        if d == 0 || d & IN_ARRAY != 0 {
            return Vec::new();
        }
        let mut v = vec![d & !MORE];
        if d & MORE != 0 {
            v.extend(&self.more[&r]);
            v.sort();
        }
        v
    }
    fn walk_leaf(&self, a: u32, lo: u32, hi: u32, f: &mut dyn FnMut(Step)) {
        if lo < hi {
            let m = lo + (hi - lo) / 2;
            let r = self.arrays[a as usize].rows[m as usize] as usize;
            f(Step::Open);
            self.walk_leaf(a, lo, m, f);
            f(Step::Atom { id: self.rows.id[r], atom: self.rows.atom[r], dead: &[] });
            self.walk_leaf(a, m + 1, hi, f);
            f(Step::Close);
        }
    }
}

fn shape(r: u32, lo: u32, hi: u32, toks: &mut Vec<u32>) {
    if lo < hi {
        let m = lo + (hi - lo) / 2;
        toks.push((r + m) << 2 | OPEN);
        shape(r, lo, m, toks);
        toks.push((r + m) << 2 | LIVE);
        shape(r, m + 1, hi, toks);
        toks.push((r + m) << 2 | CLOSE);
    }
}

impl Doc for Seq {
    fn new() -> Self {
        let mut s = Seq {
            rows: Rows::default(),
            base: Vec::new(),
            more: HashMap::new(),
            arrays: Vec::new(),
            free_arrays: Vec::new(),
            leaves: Vec::new(),
            free_leaves: Vec::new(),
            chunks: Vec::new(),
            free_chunks: Vec::new(),
            groups: Vec::new(),
            free_groups: Vec::new(),
            top: Vec::new(),
            n_rows: 0,
            n_live: 0,
            place: Pos { c: 0, o: 0 },
            place_index: 0,
            last: None,
            cur: None,
        };
        s.reset();
        s
    }
    fn live(&self) -> u32 {
        self.n_live
    }
    fn rows(&self) -> u32 {
        self.n_rows
    }
    fn has(&self, id: Id) -> bool {
        self.row(id).is_some()
    }
    fn live_at(&mut self, index: u32) -> Id {
        let (p, inner) = self.find_live(index);
        let t = self.chunks[p.c as usize].toks[p.o as usize];
        let r = if t & LEAF != 0 { self.leaf_row(t, inner) } else { t >> 2 };
        self.rows.id[r as usize]
    }
    fn index_of(&self, id: Id) -> Option<u32> {
        let r = self.row(id)?;
        match self.last {
            Some(l) if l.row == r && l.index != NONE => return Some(l.index),
            _ => {}
        }
        match self.rows.del[r as usize] {
            0 => Some(self.live_before(self.pos_atom(r))),
            IN_ARRAY => {
                let l = self.leaf_of(r);
                let inner = self.rows.home[1][r as usize] - self.leaves[l as usize].lo;
                Some(self.live_before(self.pos_leaf(l)) + inner)
            }
            _ => None,
        }
    }
    fn alloc(&mut self, index: u32) -> Slot {
        self.place_index = index;
        self.find_place(index)
    }
    fn insert_alloc(&mut self, dot: Dot, atoms: &[Atom]) {
        self.insert_at(self.place, dot, atoms, self.place_index);
    }
    fn insert(&mut self, slot: Slot, dot: Dot, atoms: &[Atom]) {
        let (mut p, end);
        if slot == ROOT {
            p = self.first();
            end = NONE;
        } else {
            let x = self.row(slot.atom()).expect("the slot's atom is a row");
            self.explode(x);
            let mid = match self.last {
                Some(l) if l.row == x => l.at,
                _ => self.pos_atom(x),
            };
            if slot.bit() == RIGHT {
                p = Pos { o: mid.o + 1, ..mid };
                end = x << 2 | CLOSE;
            } else if self.before(mid) == Some(x << 2 | OPEN) {
                return self.insert_at(mid, dot, atoms, NONE);
            } else {
                p = self.pos_open(x);
                p.o += 1;
                end = self.atom_tok(x);
            }
        }
        let me = id(dot, atoms.len() as u32 / 2);
        while let Some((q, t)) = self.at(p) {
            if t == end || self.top_id(t) > me {
                break;
            }
            p = if t & LEAF != 0 { q } else { self.pos_close(t >> 2) };
            p.o += 1;
        }
        self.insert_at(p, dot, atoms, NONE);
    }
    fn delete(&mut self, id: Id, by: Dot) {
        let r = self.row(id).expect("the target is a row");
        self.explode(r);
        if self.rows.del[r as usize] == 0 {
            let p = self.pos_atom(r);
            self.rows.del[r as usize] = by;
            self.chunks[p.c as usize].toks[p.o as usize] = r << 2 | DEAD;
            self.add(p.c, 1u64.wrapping_neg());
            self.n_live -= 1;
            if let Some((c, _)) = self.cur {
                if c != p.c {
                    self.cur = None;
                }
            }
            if let Some(l) = &mut self.last {
                l.index = NONE;
            }
        } else {
            self.rows.del[r as usize] |= MORE;
            self.more.entry(r).or_default().push(by);
        }
    }
    fn flatten(&mut self, slot: Slot) {
        self.open_slot(slot);
        let (a, b) = self.range(slot);
        let toks = self.tokens(a, b);
        let p = if slot == ROOT {
            self.reset();
            self.first()
        } else {
            self.cut(a, b)
        };
        let mut keep: Vec<u32> = Vec::new();
        let mut parts: Vec<(u32, usize)> = Vec::new(); // an array (or NONE for a node) and where its rows end in `keep`
        for t in toks {
            if t & LEAF != 0 {
                let l = self.leaves[(t & !LEAF) as usize];
                let array = &mut self.arrays[l.array as usize];
                keep.extend_from_slice(&array.rows[l.lo as usize..l.hi as usize]);
                array.left -= l.hi - l.lo;
                self.free_leaves.push(t & !LEAF);
                parts.push((l.array, keep.len()));
            } else if t & 3 == LIVE {
                keep.push(t >> 2);
                parts.push((NONE, keep.len()));
            } else if t & 3 == DEAD {
                if self.rows.del[(t >> 2) as usize] & MORE != 0 {
                    self.more.remove(&(t >> 2));
                }
                self.rows.del[(t >> 2) as usize] = GONE;
                self.n_rows -= 1;
            }
        }
        let k = keep.len() as u32;
        // An array that the flatten empties gives the new one its number: most of its rows keep it so.
        let (mut from, mut reuse, mut most) = (0, NONE, 0);
        for &(a, to) in &parts {
            if a != NONE && self.arrays[a as usize].left == 0 && to - from > most {
                (reuse, most) = (a, to - from);
            }
            from = to;
        }
        if k > 0 {
            let a = if reuse != NONE { reuse } else { self.empty_array() };
            from = 0;
            for &(b, to) in &parts {
                for i in from..to {
                    self.rows.home[1][keep[i] as usize] = i as u32;
                }
                if b != a {
                    for &r in &keep[from..to] {
                        self.rows.del[r as usize] = IN_ARRAY;
                        self.rows.home[2][r as usize] = a;
                    }
                }
                from = to;
            }
            self.arrays[a as usize] = Array { rows: keep, left: k };
            let t = self.new_leaf(a, 0, k);
            self.put(p, &[t], k as u64 * (1 << 32 | 1));
        }
        for (a, _) in parts {
            if a != NONE && a != reuse && self.arrays[a as usize].left == 0 && !self.arrays[a as usize].rows.is_empty() {
                self.arrays[a as usize].rows = Vec::new();
                self.free_arrays.push(a);
            }
        }
    }
    fn within(&mut self, id: Id, slot: Slot) -> bool {
        if slot == ROOT {
            return true;
        }
        self.open_slot(slot);
        let r = self.row(id).expect("a row");
        let x = self.row(slot.atom()).unwrap();
        if r == x {
            return false;
        }
        let (k, mid) = (self.key(self.pos_row(r)), self.key(self.pos_atom(x)));
        if slot.bit() == RIGHT {
            mid < k && k < self.key(self.pos_close(x))
        } else {
            k < mid && self.key(self.pos_open(x)) < k
        }
    }
    fn known(&mut self, slot: Slot, v: &dyn Fn(Dot) -> bool) -> bool {
        self.open_slot(slot);
        let (a, b) = self.range(slot);
        self.tokens(a, b).into_iter().all(|t| {
            if t & LEAF != 0 {
                let l = self.leaves[(t & !LEAF) as usize];
                let rows = &self.arrays[l.array as usize].rows[l.lo as usize..l.hi as usize];
                rows.iter().all(|&r| v(dot_of(self.rows.id[r as usize])))
            } else if t & 2 != 0 {
                v(dot_of(self.rows.id[(t >> 2) as usize])) && self.dels(t >> 2).into_iter().all(v)
            } else {
                true
            }
        })
    }
    fn walk(&self, f: &mut dyn FnMut(Step)) {
        for &g in &self.top {
            for &c in &self.groups[g as usize].kids {
                for &t in &self.chunks[c as usize].toks {
                    if t & LEAF != 0 {
                        let l = self.leaves[(t & !LEAF) as usize];
                        self.walk_leaf(l.array, l.lo, l.hi, f);
                        continue;
                    }
                    let r = (t >> 2) as usize;
                    match t & 3 {
                        OPEN => f(Step::Open),
                        CLOSE => f(Step::Close),
                        _ => f(Step::Atom { id: self.rows.id[r], atom: self.rows.atom[r], dead: &self.dels(t >> 2) }),
                    }
                }
            }
        }
    }
    fn text(&self, most: u32, f: &mut dyn FnMut(Atom)) {
        let mut left = most;
        for &g in &self.top {
            for &c in &self.groups[g as usize].kids {
                for &t in &self.chunks[c as usize].toks {
                    if left == 0 {
                        return;
                    }
                    if t & LEAF != 0 {
                        let l = self.leaves[(t & !LEAF) as usize];
                        let hi = l.hi.min(l.lo.saturating_add(left));
                        for &r in &self.arrays[l.array as usize].rows[l.lo as usize..hi as usize] {
                            f(self.rows.atom[r as usize]);
                        }
                        left -= hi - l.lo;
                    } else if t & 3 == LIVE {
                        f(self.rows.atom[(t >> 2) as usize]);
                        left -= 1;
                    }
                }
            }
        }
    }
    fn audit(&self) {
        let (mut rows, mut live) = (0, 0);
        let mut stack: Vec<(u32, u32)> = Vec::new(); // row, state 0 before its atom, 1 after
        let mut tops: Vec<Option<Id>> = vec![None];
        for (i, &g) in self.top.iter().enumerate() {
            let group = &self.groups[g as usize];
            assert_eq!(group.rank, i as u32);
            assert!(!group.kids.is_empty() && group.kids.len() <= GR);
            let mut gw = 0;
            for &c in &group.kids {
                let ch = &self.chunks[c as usize];
                assert_eq!(ch.group, g);
                assert!(ch.toks.len() <= CH && (!ch.toks.is_empty() || self.n_rows == 0));
                assert_eq!(ch.w, self.wsum(&ch.toks));
                gw += ch.w;
                for &t in &ch.toks {
                    let w = self.weight(t);
                    rows += (w >> 32) as u32;
                    live += w as u32;
                    let top = |tops: &mut Vec<Option<Id>>, id| {
                        let x = tops.last_mut().unwrap();
                        assert!(x.map_or(true, |y| y < id));
                        *x = Some(id);
                    };
                    if t & LEAF != 0 {
                        let l = self.leaves[(t & !LEAF) as usize];
                        assert_eq!(l.chunk, c);
                        assert!(l.lo < l.hi);
                        top(&mut tops, self.top_id(t));
                        for j in l.lo..l.hi {
                            let r = self.arrays[l.array as usize].rows[j as usize];
                            let (d, h) = (self.rows.del[r as usize], &self.rows.home);
                            assert_eq!((d, h[1][r as usize], h[2][r as usize]), (IN_ARRAY, j, l.array));
                            assert_eq!(self.leaf_of(r), t & !LEAF);
                        }
                        continue;
                    }
                    let r = (t >> 2) as usize;
                    assert_eq!(self.rows.home[(t & 3).min(2) as usize][r], c);
                    match t & 3 {
                        OPEN => {
                            top(&mut tops, self.rows.id[r]);
                            stack.push((t >> 2, 0));
                            tops.push(None);
                        }
                        CLOSE => {
                            assert_eq!(stack.pop(), Some((t >> 2, 1)));
                            tops.pop();
                        }
                        k => {
                            assert_eq!(stack.pop(), Some((t >> 2, 0)));
                            stack.push((t >> 2, 1));
                            *tops.last_mut().unwrap() = None;
                            assert_eq!(k == LIVE, self.rows.del[r] == 0);
                            assert!(self.rows.del[r] & IN_ARRAY == 0);
                        }
                    }
                }
            }
            assert_eq!(group.w, gw);
        }
        assert!(stack.is_empty());
        assert_eq!((rows, live), (self.n_rows, self.n_live));
    }
}
