//! Sections 2, 6 and 8: which programs keep.

use crate::reader::{read_with, Point, Program};

#[derive(Clone, Copy, Debug, PartialEq, Eq)]
pub enum Answer {
    NoProgram,
    Keeps,
    Careless,
}

impl std::fmt::Display for Answer {
    fn fmt(&self, f: &mut std::fmt::Formatter<'_>) -> std::fmt::Result {
        f.write_str(match self {
            Answer::NoProgram => "no program",
            Answer::Keeps => "keeps",
            Answer::Careless => "careless",
        })
    }
}

pub fn judge(words: &[u32]) -> Answer {
    match read_with::<false>(words) {
        None => Answer::NoProgram,
        Some(program) if keeps(&program) => Answer::Keeps,
        Some(_) => Answer::Careless,
    }
}

/// A program that keeps to its conversations.
#[derive(Clone, Debug)]
pub struct Kept<'a>(Program<'a>);

impl<'a> Kept<'a> {
    /// `None` if the program is careless.
    pub fn of(program: Program<'a>) -> Option<Kept<'a>> {
        keeps(&program).then_some(Kept(program))
    }

    pub fn program(&self) -> &Program<'a> {
        &self.0
    }
}

/// Whether a program that was read keeps to its conversations.
pub fn keeps(program: &Program) -> bool {
    match program.processes.first() {
        Some(first) if first.conversations == 0 && first.handed == 0 => {}
        _ => return false,
    }
    if !points_fit(&program.points) {
        return false;
    }
    let mut ways = Vec::new();
    (0..program.processes.len()).all(|f| walk(program, f, &mut ways).is_some())
}

fn points_fit(points: &[Point]) -> bool {
    let names = |a: u32, b: u32| points.get(a as usize).is_some_and(|p| p.other == b);
    let mutual = |a: u32, b: u32| names(a, b) && names(b, a);
    points.iter().enumerate().all(|(i, p)| {
        let i = i as u32;
        let Some(q) = points.get(p.other as usize) else { return false };
        q.other == i
            && match (p.kind, q.kind) {
                (0, 0) => true,
                (1, 2) | (2, 1) => mutual(p.n, q.n),
                (3, 4) | (4, 3) => mutual(p.n, q.n) && mutual(p.m, q.m),
                _ => false,
            }
    })
}

/// Where the conversations of a process are. Bit c of `held`: c is there and was not handed on; bit c of `open`: and
/// it is not at an `over` point.
#[derive(Clone, Copy)]
struct Place {
    at: [u32; 16],
    count: u32,
    held: u32,
    open: u32,
}

impl Place {
    fn is_over(points: &[Point], at: u32) -> bool {
        points.get(at as usize).is_some_and(|p| p.kind == 0)
    }

    fn put(&mut self, points: &[Point], c: u32, at: u32) {
        self.at[(c & 15) as usize] = at;
        if Place::is_over(points, at) {
            self.open &= !(1 << c);
        } else {
            self.open |= 1 << c;
        }
    }

    /// The point at which conversation c is, if it has to be of this kind.
    #[inline]
    fn point<'p>(&self, points: &'p [Point], c: u32, kind: u32) -> Option<&'p Point> {
        if c >= self.count || self.held >> c & 1 == 0 {
            return None;
        }
        points.get(self.at[(c & 15) as usize] as usize).filter(|p| p.kind == kind)
    }

    /// Hands on the conversations of `cs`, which must be at `wanted`.
    fn hand(&mut self, cs: &[u32], wanted: &[u32]) -> Option<()> {
        if cs.len() != wanted.len() {
            return None;
        }
        for (&c, &want) in cs.iter().zip(wanted) {
            if c >= self.count || self.held >> c & 1 == 0 || self.at[(c & 15) as usize] != want {
                return None;
            }
            self.held &= !(1 << c);
            self.open &= !(1 << c);
        }
        Some(())
    }
}

/// Goes over an expression; `None` if a variable of it is not there.
#[inline]
fn variables(words: &[u32], mut at: usize, there: u32) -> Option<usize> {
    let mut left = 1u32;
    loop {
        match words[at] {
            0 => at += 2,
            1 => {
                if words[at + 1] >= there {
                    return None;
                }
                at += 2;
            }
            _ => {
                at += 1;
                left += 1;
                continue;
            }
        }
        left -= 1;
        if left == 0 {
            return Some(at);
        }
    }
}

/// The walk through process `me`; `None` if it does not keep.
fn walk(program: &Program, me: usize, ways: &mut Vec<Place>) -> Option<()> {
    let words = program.words;
    let points = &program.points[..];
    let process = &program.processes[me];
    let there = process.variables as u32;
    let mut place = Place { at: [0; 16], count: process.conversations as u32, held: 0, open: 0 };
    for (c, &at) in program.begins(process).iter().enumerate() {
        place.held |= 1 << c;
        place.put(points, c as u32, at);
    }
    ways.clear();
    let mut at = process.body;
    loop {
        match words[at] {
            0 => {
                if place.open != 0 {
                    return None;
                }
                at += 1;
                match ways.pop() {
                    Some(way) => place = way,
                    None => return Some(()),
                }
            }
            1 => {
                let c = words[at + 1];
                let p = place.point(points, c, 1)?;
                at = variables(words, at + 2, there)?;
                place.put(points, c, p.n);
            }
            2 => {
                let c = words[at + 1];
                let p = place.point(points, c, 2)?;
                if words[at + 2] >= there {
                    return None;
                }
                at += 3;
                place.put(points, c, p.n);
            }
            3 => {
                let c = words[at + 1];
                let p = place.point(points, c, 3)?;
                let next = match words[at + 2] {
                    0 => p.n,
                    1 => p.m,
                    _ => return None,
                };
                at += 3;
                place.put(points, c, next);
            }
            4 => {
                let c = words[at + 1];
                let p = place.point(points, c, 4)?;
                at += 2;
                let mut way = place;
                way.put(points, c, p.m);
                ways.push(way);
                place.put(points, c, p.n);
            }
            5 => {
                if words[at + 1] >= there {
                    return None;
                }
                at = variables(words, at + 2, there)?;
            }
            6 => {
                at = variables(words, at + 1, there)?;
                ways.push(place);
            }
            7 => {
                if me != 0 {
                    return None;
                }
                at = variables(words, at + 1, there)?;
            }
            action => {
                // 8 start, 9 become: the reader lets nothing else through.
                let f = words[at + 1] as usize;
                let process = program.processes.get(f)?;
                let begins = program.begins(process);
                let cs = words[at + 2] as usize;
                at += 3;
                let list = &words[at..at + cs];
                at += cs;
                let es = words[at] as usize;
                at += 1;
                if es != process.handed {
                    return None;
                }
                for _ in 0..es {
                    at = variables(words, at, there)?;
                }
                if action == 8 {
                    let (&p0, rest) = begins.split_first()?;
                    place.hand(list, rest)?;
                    let other = points.get(p0 as usize)?.other;
                    let c = place.count;
                    place.count += 1;
                    place.held |= 1 << c;
                    place.put(points, c, other);
                } else {
                    if (me == 0) != (f == 0) {
                        return None;
                    }
                    place.hand(list, begins)?;
                    if place.open != 0 {
                        return None;
                    }
                    match ways.pop() {
                        Some(way) => place = way,
                        None => return Some(()),
                    }
                }
            }
        }
    }
}
