//! Programs as trees, to be written as rows; and rows as lines of decimal words.

use crate::reader::MOST_WORDS;

#[derive(Clone, Debug)]
pub enum Exp {
    Num(u32),
    Var(u32),
    /// 2 add, 3 sub, 4 mul, 5 less.
    Op(u32, Box<Exp>, Box<Exp>),
}

#[derive(Clone, Debug)]
pub enum Act {
    Give(u32, Exp),
    Take(u32, u32),
    Choose(u32, u32),
    Set(u32, Exp),
    Show(Exp),
    Start(u32, Vec<u32>, Vec<Exp>),
}

#[derive(Clone, Debug)]
pub enum End {
    Stop,
    Become(u32, Vec<u32>, Vec<Exp>),
    Offer(u32, Box<Body>, Box<Body>),
    If(Exp, Box<Body>, Box<Body>),
}

#[derive(Clone, Debug)]
pub struct Body {
    pub acts: Vec<Act>,
    pub end: End,
}

#[derive(Clone, Debug)]
pub struct Proc {
    pub points: Vec<u32>,
    pub handed: u32,
    pub vars: u32,
    pub body: Body,
}

#[derive(Clone, Copy, Debug, PartialEq, Eq)]
pub struct Pt {
    pub kind: u32,
    pub n: u32,
    pub m: u32,
}

#[derive(Clone, Debug, Default)]
pub struct Prog {
    pub points: Vec<Pt>,
    pub others: Vec<u32>,
    pub procs: Vec<Proc>,
}

impl Exp {
    fn write(&self, row: &mut Vec<u32>) {
        match self {
            Exp::Num(n) => row.extend([0, *n]),
            Exp::Var(x) => row.extend([1, *x]),
            Exp::Op(op, a, b) => {
                row.push(*op);
                a.write(row);
                b.write(row);
            }
        }
    }
}

fn write_lists(cs: &[u32], es: &[Exp], row: &mut Vec<u32>) {
    row.push(cs.len() as u32);
    row.extend(cs);
    row.push(es.len() as u32);
    es.iter().for_each(|e| e.write(row));
}

impl Body {
    fn write(&self, row: &mut Vec<u32>) {
        for act in &self.acts {
            match act {
                Act::Give(c, e) => {
                    row.extend([1, *c]);
                    e.write(row);
                }
                Act::Take(c, x) => row.extend([2, *c, *x]),
                Act::Choose(c, k) => row.extend([3, *c, *k]),
                Act::Set(x, e) => {
                    row.extend([5, *x]);
                    e.write(row);
                }
                Act::Show(e) => {
                    row.push(7);
                    e.write(row);
                }
                Act::Start(f, cs, es) => {
                    row.extend([8, *f]);
                    write_lists(cs, es, row);
                }
            }
        }
        match &self.end {
            End::Stop => row.push(0),
            End::Become(f, cs, es) => {
                row.extend([9, *f]);
                write_lists(cs, es, row);
            }
            End::Offer(c, s, t) => {
                row.extend([4, *c]);
                s.write(row);
                t.write(row);
            }
            End::If(e, s, t) => {
                row.push(6);
                e.write(row);
                s.write(row);
                t.write(row);
            }
        }
    }
}

impl Prog {
    pub fn write(&self) -> Vec<u32> {
        let mut row = vec![self.points.len() as u32];
        for p in &self.points {
            match p.kind {
                0 => row.push(0),
                1 | 2 => row.extend([p.kind, p.n]),
                _ => row.extend([p.kind, p.n, p.m]),
            }
        }
        row.extend(&self.others);
        for p in &self.procs {
            row.push(p.points.len() as u32);
            row.extend(&p.points);
            row.extend([p.handed, p.vars]);
            p.body.write(&mut row);
        }
        row
    }
}

/// Reads a line of decimal words, separated by blanks. `None` if a token is no decimal number or is past 2^32 - 1. Of a
/// line with more words than a program may have, only one more than that is kept: no program all the same.
pub fn words(line: &[u8], into: &mut Vec<u32>) -> Option<()> {
    into.clear();
    let mut i = 0;
    while i < line.len() {
        let byte = line[i];
        if matches!(byte, b' ' | b'\t' | b'\r' | b'\n') {
            i += 1;
            continue;
        }
        let mut number = 0u64;
        while i < line.len() && !matches!(line[i], b' ' | b'\t' | b'\r' | b'\n') {
            let digit = line[i].wrapping_sub(b'0');
            if digit > 9 {
                return None;
            }
            number = number * 10 + digit as u64;
            if number > u32::MAX as u64 {
                return None;
            }
            i += 1;
        }
        if into.len() <= MOST_WORDS {
            into.push(number as u32);
        }
    }
    Some(())
}

/// A row as a line of decimal words.
pub fn line(row: &[u32]) -> String {
    let mut line = String::with_capacity(row.len() * 3);
    for (i, word) in row.iter().enumerate() {
        if i > 0 {
            line.push(' ');
        }
        line.push_str(&word.to_string());
    }
    line
}
