//! The script language of `play`, with the first fault by line and kind.

use crate::ids::*;
use unicode_segmentation::UnicodeSegmentation;

pub enum Command {
    Sites(usize),
    Ins(usize, u32, Vec<Atom>),
    Paste(usize, u32, Vec<Atom>),
    Del(usize, u32, u32),
    Flat(usize, Place),
    Cancel(usize, Dot),
    Give(usize, u64),
    GiveAll(usize),
    Settle,
    Show(usize),
    Tree(usize),
    Count(usize),
}

#[derive(Clone, Copy)]
pub enum Place {
    Whole,
    Beside(u32, u32),
}

pub struct Script {
    pub sites: usize,
    pub commands: Vec<Command>,
    pub atoms: Atoms,
}

pub struct Fault(pub u32, pub &'static str);

/// A number of the formats: `0`, or a digit from 1 to 9 and at most eight more.
pub fn number(w: &[u8]) -> Option<u32> {
    if w.is_empty() || w.len() > 9 || (w[0] == b'0' && w.len() > 1) || !w.iter().all(u8::is_ascii_digit) {
        return None;
    }
    Some(w.iter().fold(0, |n, b| n * 10 + (b - b'0') as u32))
}

struct Args<'a> {
    rest: &'a [u8], // with the space before the next argument
    sites: usize,
}

impl<'a> Args<'a> {
    fn start(&mut self) -> Result<&'a [u8], &'static str> {
        // What is left is empty or begins with a space, but for what follows a closing quote.
        if self.rest.len() < 2 || self.rest[0] != b' ' {
            return Err("end");
        }
        Ok(&self.rest[1..])
    }
    fn word(&mut self) -> Result<&'a [u8], &'static str> {
        let r = self.start()?;
        let n = r.iter().position(|&b| b == b' ').unwrap_or(r.len());
        self.rest = &r[n..];
        Ok(&r[..n])
    }
    fn number(&mut self) -> Result<u32, &'static str> {
        number(self.word()?).ok_or("number")
    }
    fn site(&mut self) -> Result<usize, &'static str> {
        let n = self.number()? as usize;
        if n < 1 || n > self.sites {
            return Err("site");
        }
        Ok(n - 1)
    }
    fn dot(&mut self) -> Result<Dot, &'static str> {
        let w = self.word()?;
        let p = w.iter().position(|&b| b == b'.').ok_or("dot")?;
        let (s, q) = (number(&w[..p]).ok_or("dot")?, number(&w[p + 1..]).ok_or("dot")?);
        if s < 1 || s as usize > self.sites || q < 1 || q > 65_535 {
            return Err("dot");
        }
        Ok(dot(s as usize - 1, q))
    }
    fn text(&mut self, atoms: &mut Atoms) -> Result<Vec<Atom>, &'static str> {
        let r = self.start()?;
        if r[0] != b'"' {
            return Err("quote");
        }
        let mut text = Vec::new();
        let mut i = 1;
        loop {
            match r.get(i) {
                None => return Err("quote"),
                Some(b'"') => break,
                Some(b'\\') => {
                    text.push(match r.get(i + 1) {
                        Some(b'"') => b'"',
                        Some(b'\\') => b'\\',
                        Some(b'n') => b'\n',
                        _ => return Err("quote"),
                    });
                    i += 2;
                }
                Some(&b) => {
                    text.push(b);
                    i += 1;
                }
            }
        }
        self.rest = &r[i + 1..];
        cut(&text, atoms)
    }
}

/// One atom per grapheme cluster.
pub fn cut(text: &[u8], atoms: &mut Atoms) -> Result<Vec<Atom>, &'static str> {
    if text.is_ascii() {
        // There is no CR, so each byte is a cluster.
        return Ok(text.iter().map(|b| 1 << 24 | *b as u32).collect());
    }
    let text = std::str::from_utf8(text).unwrap();
    let mut out = Vec::new();
    let mut begin = 0;
    for (at, g) in text.grapheme_indices(true) {
        let end = at + g.len();
        if text[end..].chars().next().is_some_and(|c| consonant(c) && linked(&text[begin..end])) {
            continue; // GB9c, which came with Unicode 15.1; the crate at hand has the rules of 14
        }
        if end - begin > 64 {
            return Err("atom");
        }
        out.push(atoms.put(text[begin..end].as_bytes()));
        begin = end;
    }
    Ok(out)
}

/// The text ends in a consonant and joining marks, a linker among them.
fn linked(text: &str) -> bool {
    let mut linker = false;
    for c in text.chars().rev() {
        match c as u32 {
            0x94D | 0x9CD | 0xACD | 0xB4D | 0xC4D | 0xD4D => linker = true,
            0x300..=0x36F | 0x93C | 0x951..=0x954 | 0x9BC | 0xABC | 0xB3C | 0xC3C | 0x200D => {}
            _ => return linker && consonant(c),
        }
    }
    false
}

fn consonant(c: char) -> bool {
    matches!(c as u32,
        0x915..=0x939 | 0x958..=0x95F | 0x978..=0x97F | 0x995..=0x9A8 | 0x9AA..=0x9B0 | 0x9B2 | 0x9B6..=0x9B9
        | 0x9DC | 0x9DD | 0x9DF | 0x9F0 | 0x9F1 | 0xA95..=0xAA8 | 0xAAA..=0xAB0 | 0xAB2 | 0xAB3 | 0xAB5..=0xAB9
        | 0xAF9 | 0xB15..=0xB28 | 0xB2A..=0xB30 | 0xB32 | 0xB33 | 0xB35..=0xB39 | 0xB5C | 0xB5D | 0xB5F | 0xB71
        | 0xC15..=0xC28 | 0xC2A..=0xC39 | 0xC58..=0xC5A | 0xD15..=0xD3A)
}

/// The commands that the bytes spell, or the first faulty line with its first fault.
pub fn read(bytes: &[u8]) -> Result<Script, Fault> {
    if bytes.len() > 1_048_576 {
        return Err(Fault(0, "size"));
    }
    let mut s = Script { sites: 0, commands: Vec::new(), atoms: Atoms::default() };
    let mut work = 0u64;
    let mut lines: Vec<&[u8]> = bytes.split(|&b| b == b'\n').collect();
    if lines.last().is_some_and(|l| l.is_empty()) {
        lines.pop();
    }
    for (i, line) in lines.into_iter().enumerate() {
        let fault = |kind| Fault(i as u32 + 1, kind);
        if line.len() > 65_536 {
            return Err(fault("long"));
        }
        if line.iter().any(|&b| b < 0x20 || b == 0x7F) || std::str::from_utf8(line).is_err() {
            return Err(fault("bytes"));
        }
        if line.is_empty() || line[0] == b'#' {
            continue;
        }
        let n = line.iter().position(|&b| b == b' ').unwrap_or(line.len());
        let (word, rest) = line.split_at(n);
        let mut a = Args { rest, sites: s.sites };
        const WORDS: [&[u8]; 11] =
            [b"sites", b"ins", b"paste", b"del", b"flat", b"cancel", b"give", b"settle", b"show", b"tree", b"count"];
        if !WORDS.contains(&word) {
            return Err(fault("word"));
        }
        if (word == b"sites") == (s.sites > 0) {
            return Err(fault("sites"));
        }
        let (command, cost) = command(word, &mut a, &mut s.atoms, bytes.len() > 32_768).map_err(fault)?;
        if !a.rest.is_empty() {
            return Err(fault("end"));
        }
        if let Command::Sites(n) = command {
            s.sites = n;
        }
        work += cost;
        if s.sites > 16 && work > 65_535 || s.sites > 8 && work > 131_072 {
            return Err(fault("size"));
        }
        s.commands.push(command);
    }
    Ok(s)
}

fn command(word: &[u8], a: &mut Args, atoms: &mut Atoms, long: bool) -> Result<(Command, u64), &'static str> {
    use Command::*;
    Ok(match word {
        b"sites" => {
            let n = a.number()? as usize;
            if n < 1 || n > 64 {
                return Err("sites");
            }
            if n > 16 && long {
                return Err("size");
            }
            (Sites(n), 0)
        }
        b"ins" | b"paste" => {
            let (r, i, t) = (a.site()?, a.number()?, a.text(atoms)?);
            let cost = t.len() as u64;
            (if word == b"ins" { Ins(r, i, t) } else { Paste(r, i, t) }, cost)
        }
        b"del" => {
            let (r, i, k) = (a.site()?, a.number()?, a.number()?);
            (Del(r, i, k), k as u64)
        }
        b"flat" => {
            let r = a.site()?;
            let place = match a.word()? {
                b"root" => Place::Whole,
                w => {
                    let i = number(w).ok_or("number")?;
                    match a.word()? {
                        b"left" => Place::Beside(i, LEFT),
                        b"right" => Place::Beside(i, RIGHT),
                        _ => return Err("word"),
                    }
                }
            };
            (Flat(r, place), 1)
        }
        b"cancel" => (Cancel(a.site()?, a.dot()?), 1),
        b"give" => {
            let r = a.site()?;
            match a.word()? {
                b"all" => (GiveAll(r), 0),
                w => (Give(r, number(w).ok_or("number")? as u64), 0),
            }
        }
        b"settle" => (Settle, 0),
        b"show" => (Show(a.site()?), 0),
        b"tree" => (Tree(a.site()?), 0),
        _ => (Count(a.site()?), 0),
    })
}
