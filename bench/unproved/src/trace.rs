//! The reader of traces: the one line that is not of the form, or where the lines of each part are.

use crate::ids::*;

pub struct Entry<'a> {
    pub input: Input<'a>,
    pub reply: Reply,
}

#[derive(Clone, Copy)]
pub enum Input<'a> {
    Ask(Request<'a>),
    TakeOp(Dot),
    TakeVote { voter: usize, proposal: Dot, yes: bool },
    Next,
}

#[derive(Clone, Copy)]
pub enum Request<'a> {
    Insert(u32, Run<'a>),
    InsertAfter(Option<Id>, Run<'a>),
    Delete(u32),
    DeleteAtom(Id),
    Propose(Slot),
    ProposeAt(u32, u32),
    Cancel(Dot),
}

#[derive(Clone, Copy, PartialEq, Eq)]
pub enum Reply {
    Made(Dot),
    Cancelled,
    Held(Dot),
    Position(u32),
    Gone(Id),
    Limit(u32, u32),
    NotOpen(Dot),
    New,
    Later,
    Repeat,
    Unfit,
    Taken(Dot),
    Dropped,
    Idle,
}

/// The atoms of a run as they are written, each in its quotes and with a space between two.
#[derive(Clone, Copy)]
pub struct Run<'a>(&'a [u8]);

impl Run<'_> {
    pub fn atoms(self, table: &mut Atoms) -> Vec<Atom> {
        let (mut atoms, mut left) = (vec![], Cursor(self.0));
        while let Some(raw) = left.text() {
            atoms.push(table.put(&plain(raw)));
            left.eat(b" ");
        }
        atoms
    }
}

/// What an editor did.
pub enum Deed<'a> {
    Call { number: u64, entry: u64 },
    Look { calls: u64, upto: u64, text: &'a [u8] },
}

// Words, numbers and texts.

struct Cursor<'a>(&'a [u8]);

const SHORT: u64 = u32::MAX as u64;

impl<'a> Cursor<'a> {
    fn eat(&mut self, word: &[u8]) -> bool {
        let rest = self.0.strip_prefix(word);
        self.0 = rest.unwrap_or(self.0);
        rest.is_some()
    }
    fn need(&mut self, word: &[u8]) -> Option<()> {
        self.eat(word).then_some(())
    }
    fn end(&self) -> Option<()> {
        self.0.is_empty().then_some(())
    }
    /// Digits without a needless 0 in front, in the range.
    fn number(&mut self, least: u64, most: u64) -> Option<u64> {
        let n = self.0.iter().position(|b| !b.is_ascii_digit()).unwrap_or(self.0.len());
        let (digits, rest) = self.0.split_at(n);
        self.0 = rest;
        if n == 0 || n > 1 && digits[0] == b'0' {
            return None;
        }
        let add = |sum: u64, b: &u8| sum.checked_mul(10)?.checked_add((b - b'0') as u64);
        let it = digits.iter().try_fold(0, add)?;
        (least <= it && it <= most).then_some(it)
    }
    fn short(&mut self) -> Option<u32> {
        Some(self.number(0, SHORT)? as u32)
    }
    /// From 0.
    fn site(&mut self, most: usize) -> Option<usize> {
        Some(self.number(1, most as u64)? as usize - 1)
    }
    fn dot(&mut self) -> Option<Dot> {
        let site = self.site(64)?;
        self.need(b".")?;
        Some(dot(site, self.number(1, 65_535)? as u32))
    }
    fn id(&mut self) -> Option<Id> {
        let d = self.dot()?;
        let offset = if self.eat(b"+") { self.number(1, 63)? } else { 0 };
        Some(id(d, offset as u32))
    }
    fn bit(&mut self) -> Option<u32> {
        if self.eat(b" left") {
            return Some(LEFT);
        }
        self.need(b" right")?;
        Some(RIGHT)
    }
    /// What stands between the quotes, as it is written.
    fn text(&mut self) -> Option<&'a [u8]> {
        let inner = self.0.strip_prefix(b"\"")?;
        let mut i = 0;
        loop {
            match inner.get(i)? {
                b'"' => break,
                b'\\' if matches!(inner.get(i + 1)?, b'"' | b'\\' | b'n') => i += 2,
                b'\\' => return None,
                _ => i += 1,
            }
        }
        self.0 = &inner[i + 1..];
        std::str::from_utf8(&inner[..i]).ok()?;
        Some(&inner[..i])
    }
    /// At least one atom and at most `most`, behind a space; together they have at most 64 bytes.
    fn run(&mut self, most: usize) -> Option<Run<'a>> {
        self.need(b" ")?;
        let (all, mut bytes, mut count) = (self.0, 0, 0);
        loop {
            let len = plain_len(self.text()?);
            (bytes, count) = (bytes + len, count + 1);
            if len == 0 || bytes > 64 || count > most {
                return None;
            }
            if !self.0.starts_with(b" \"") {
                return Some(Run(&all[..all.len() - self.0.len()]));
            }
            self.0 = &self.0[1..];
        }
    }
}

/// The bytes of a text that is written with its escapes.
fn plain(raw: &[u8]) -> Vec<u8> {
    let (mut out, mut left) = (Vec::with_capacity(raw.len()), raw.iter());
    while let Some(&b) = left.next() {
        out.push(match b {
            b'\\' => left.next().map_or(b, |&c| if c == b'n' { b'\n' } else { c }),
            _ => b,
        });
    }
    out
}

fn plain_len(raw: &[u8]) -> usize {
    if raw.contains(&b'\\') {
        plain(raw).len()
    } else {
        raw.len()
    }
}

// Lines.

fn request<'a>(c: &mut Cursor<'a>) -> Option<Request<'a>> {
    Some(if c.eat(b"insert ") {
        Request::Insert(c.short()?, c.run(1)?)
    } else if c.eat(b"insertafter ") {
        Request::InsertAfter(after(c)?, c.run(1)?)
    } else if c.eat(b"paste ") {
        Request::Insert(c.short()?, c.run(64)?)
    } else if c.eat(b"pasteafter ") {
        Request::InsertAfter(after(c)?, c.run(64)?)
    } else if c.eat(b"delete ") {
        Request::Delete(c.short()?)
    } else if c.eat(b"deleteatom ") {
        Request::DeleteAtom(c.id()?)
    } else if c.eat(b"propose root") {
        Request::Propose(ROOT)
    } else if c.eat(b"propose ") {
        let atom = c.id()?;
        Request::Propose(Slot::at(atom, c.bit()?))
    } else if c.eat(b"proposeat ") {
        Request::ProposeAt(c.short()?, c.bit()?)
    } else {
        c.need(b"cancel ")?;
        Request::Cancel(c.dot()?)
    })
}

fn after(c: &mut Cursor) -> Option<Option<Id>> {
    if c.eat(b"start") {
        return Some(None);
    }
    c.id().map(Some)
}

fn input<'a>(c: &mut Cursor<'a>) -> Option<Input<'a>> {
    if c.eat(b"take op ") {
        return Some(Input::TakeOp(c.dot()?));
    }
    if c.eat(b"take vote ") {
        let voter = c.site(64)?;
        c.need(b" ")?;
        let proposal = c.dot()?;
        let yes = c.eat(b" yes");
        if !yes {
            c.need(b" no")?;
        }
        return Some(Input::TakeVote { voter, proposal, yes });
    }
    if c.eat(b"next") {
        return Some(Input::Next);
    }
    request(c).map(Input::Ask)
}

fn reply(c: &mut Cursor) -> Option<Reply> {
    const WORDS: [(&[u8], Reply); 5] = [
        (b"new", Reply::New),
        (b"later", Reply::Later),
        (b"repeat", Reply::Repeat),
        (b"idle", Reply::Idle),
        (b"cancelled", Reply::Cancelled),
    ];
    if let Some((_, it)) = WORDS.into_iter().find(|(word, _)| c.eat(word)) {
        return Some(it);
    }
    Some(if c.eat(b"made ") {
        Reply::Made(c.dot()?)
    } else if c.eat(b"held ") {
        Reply::Held(c.dot()?)
    } else if c.eat(b"position ") {
        Reply::Position(c.short()?)
    } else if c.eat(b"gone ") {
        Reply::Gone(c.id()?)
    } else if c.eat(b"limit ") {
        let made = c.short()?;
        c.need(b" ")?;
        Reply::Limit(made, c.short()?)
    } else if c.eat(b"notopen ") {
        Reply::NotOpen(c.dot()?)
    } else if c.eat(b"taken ") {
        Reply::Taken(c.dot()?)
    } else if c.eat(b"unfit ") {
        why(c)?;
        Reply::Unfit
    } else {
        c.need(b"dropped ")?;
        c.dot()?;
        c.need(b" ")?;
        why(c)?;
        Reply::Dropped
    })
}

fn why(c: &mut Cursor) -> Option<()> {
    const WORDS: [&[u8]; 6] = [b"size", b"own", b"atom", b"proposal", b"vote", b"address"];
    WORDS.iter().any(|word| c.eat(word)).then_some(())
}

/// An entry with this number.
fn entry(line: &[u8], number: u64) -> Option<Entry<'_>> {
    let mut c = Cursor(line);
    c.number(number, number)?;
    c.need(b" ")?;
    let input = input(&mut c)?;
    c.need(b" -> ")?;
    let reply = reply(&mut c)?;
    c.end()?;
    Some(Entry { input, reply })
}

/// A word, a number in the range and no more.
fn numbered(line: &[u8], word: &[u8], least: u64, most: u64) -> Option<u64> {
    let mut c = Cursor(line);
    c.need(word)?;
    let it = c.number(least, most)?;
    c.end()?;
    Some(it)
}

/// The site of the editor with this number.
fn editor(line: &[u8], number: u64, sites: usize) -> Option<usize> {
    let mut c = Cursor(line);
    c.need(b"editor ")?;
    c.number(number, number.min(SHORT))?;
    c.need(b" ")?;
    let home = c.site(sites)?;
    c.end()?;
    Some(home)
}

fn deed(line: &[u8]) -> Option<Deed<'_>> {
    let mut c = Cursor(line);
    let is_call = c.eat(b"call ");
    if !is_call {
        c.need(b"look ")?;
    }
    let calls = c.number(0, u64::MAX)?;
    c.need(b" ")?;
    let place = c.number(0, u64::MAX)?;
    if is_call {
        c.end()?;
        return Some(Deed::Call { number: calls, entry: place });
    }
    c.need(b" ")?;
    let text = c.text()?;
    c.end()?;
    Some(Deed::Look { calls, upto: place, text })
}

fn text(line: &[u8], site: usize) -> Option<&[u8]> {
    let mut c = Cursor(line);
    c.need(b"text ")?;
    c.number(site as u64 + 1, site as u64 + 1)?;
    c.need(b" ")?;
    let it = c.text()?;
    c.end()?;
    Some(it)
}

// The trace.

/// The next whole line, and how many were before it.
#[derive(Clone, Copy)]
struct Lines<'a> {
    bytes: &'a [u8],
    at: usize,
    number: u32,
}

impl<'a> Lines<'a> {
    /// The next line, if there is one that ends and reads as it should.
    fn take<T>(&mut self, read: impl FnOnce(&'a [u8]) -> Option<T>) -> Option<T> {
        let left = &self.bytes[self.at..];
        let len = left.iter().position(|&b| b == b'\n')?;
        let it = read(&left[..len])?;
        (self.at, self.number) = (self.at + len + 1, self.number + 1);
        Some(it)
    }
    /// The next line, which is the first that is not of the form where it does not read.
    fn need<T>(&mut self, read: impl FnOnce(&'a [u8]) -> Option<T>) -> Result<T, u32> {
        self.take(read).ok_or(self.number + 1)
    }
}

/// Where the entries of a site begin.
struct History {
    starts: Vec<u32>,
    line: u32, // of its first entry
}

pub struct Trace<'a> {
    bytes: &'a [u8],
    histories: Vec<History>,
    deeds: Lines<'a>,
    texts: Lines<'a>,
    pub end: u32,
}

impl<'a> Trace<'a> {
    /// Hands each site, and behind it each of its entries, to `told`, with the number of all sites. Or answers the
    /// first line that is not of the form.
    pub fn read(bytes: &'a [u8], told: &mut impl FnMut(usize, usize, Option<&Entry>)) -> Result<Self, u32> {
        let mut lines = Lines { bytes, at: 0, number: 0 };
        let sites = lines.need(|l| numbered(l, b"sites ", 0, 64))? as usize;
        let mut histories = vec![];
        for site in 0..sites {
            let number = site as u64 + 1;
            lines.need(|l| numbered(l, b"site ", number, number))?;
            told(sites, site, None);
            histories.push(read_history(&mut lines, &mut |entry| told(sites, site, Some(entry))));
        }
        let deeds = lines;
        let mut editors = 0;
        while lines.take(|l| editor(l, editors + 1, sites)).is_some() {
            editors += 1;
            while lines.take(deed).is_some() {}
        }
        let texts = lines;
        for site in 0..sites {
            lines.need(|l| text(l, site))?;
        }
        lines.need(|l| (l == b"end").then_some(()))?;
        if lines.at < bytes.len() {
            return Err(lines.number + 1);
        }
        Ok(Trace { bytes, histories, deeds, texts, end: lines.number })
    }
    pub fn sites(&self) -> usize {
        self.histories.len()
    }
    /// How many entries the site has.
    pub fn len(&self, site: usize) -> usize {
        self.histories[site].starts.len()
    }
    /// The line of an entry, from 0.
    pub fn line(&self, site: usize, k: usize) -> u32 {
        self.histories[site].line + k as u32
    }
    /// An entry, from 0.
    pub fn entry(&self, site: usize, k: usize) -> Option<Entry<'a>> {
        let at = *self.histories[site].starts.get(k)? as usize;
        Lines { bytes: self.bytes, at, number: 0 }.take(|l| entry(l, k as u64 + 1))
    }
    /// For each editor its site and what it did, with its line.
    pub fn editors(&self) -> Vec<(usize, Vec<(u32, Deed<'a>)>)> {
        let (mut lines, mut all) = (self.deeds, vec![]);
        while let Some(home) = lines.take(|l| editor(l, all.len() as u64 + 1, self.sites())) {
            let mut deeds = vec![];
            while let Some(it) = lines.take(deed) {
                deeds.push((lines.number, it));
            }
            all.push((home, deeds));
        }
        all
    }
    /// For each site its line and its text.
    pub fn texts(&self) -> Vec<(u32, &'a [u8])> {
        let mut lines = self.texts;
        let read = |site| lines.take(|l| text(l, site)).map(|it| (lines.number, it));
        (0..self.sites()).map_while(read).collect()
    }
}

fn read_history(lines: &mut Lines, told: &mut impl FnMut(&Entry)) -> History {
    let mut it = History { starts: vec![], line: lines.number + 1 };
    loop {
        let (at, number) = (lines.at as u32, it.starts.len() as u64 + 1);
        let Some(entry) = lines.take(|l| entry(l, number)) else { return it };
        told(&entry);
        it.starts.push(at);
    }
}
